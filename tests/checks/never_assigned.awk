{ total += $1 }
END { print totla }
