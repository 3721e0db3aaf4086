{ print $1 > 10; printf "%s", $1 > 2; print ($1 > 10), $2 }
