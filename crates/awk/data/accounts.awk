# The accounts from a number on, numbered, and where remarks stand; of two numbers, what division makes of them.
BEGIN { print "from", least, FILENAME }
$3 >= least { n = n + 1; print n, $1, $7 }
$1 ~ /^#/ { print FILENAME, FNR, NR, $0 }
$1 ~ /^-?[0-9]+$/ { print $1 / $2, $1 % $2 }
