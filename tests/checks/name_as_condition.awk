{ if (x = y) print; while (x = $1) break; if ((x = y)) print; if (n = split($0, a)) print n; y = 1 }
$1 = $2
