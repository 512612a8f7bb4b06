printf 'bench 1\nsafe 0\n'; for b in main $(seq -f b%g 139); do echo branch $b 0 0; seq 128 | awk '{ print $1 % 3 == 1 ? "w 0 1" : "g 0 0" }'; done
