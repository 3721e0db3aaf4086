BEGIN { w = 5; printf "%-" w "s|\n", "a" }
