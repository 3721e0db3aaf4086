BEGIN { printf "%ld %*d %%\n", 1, 2, 3; printf "100%\n"; printf "%5%" }
