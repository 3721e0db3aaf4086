BEGIN { printf "%b\n", "a" }
