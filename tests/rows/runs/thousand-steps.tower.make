printf 'tower 1\nsafe 0\n'; yes "$(printf 'w 0 1\ng 0 0\ng 0 0\nw 0 0\ng 0 0\ng 0 0')" | head -n 1000
