{ printf "%.2f\n", $1 }
{ printf("%5.1f|%d\n", $1, $2); x = sprintf("%g", $1); print x }
