{ printf $0; printf($1); printf $2 "\n"; printf $1, $2; printf "%s", $0; printf x $1; x = 1 }
