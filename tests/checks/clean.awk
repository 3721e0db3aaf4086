# sums a column
{ n += $1 }
END { print n }
