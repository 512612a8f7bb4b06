echo '0 state zed 0'; head -c 16777202 /dev/zero | tr '\0' '\n'
