yes '0 remove m 0' | head -n 1048577
