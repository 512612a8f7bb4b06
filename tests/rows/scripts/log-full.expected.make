yes '0: refused 20 NoBranch' | head -n 1048576; echo '0: refused 35 LogFull'
