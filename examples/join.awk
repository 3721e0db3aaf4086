# Two tables joined by their first field; a line of the second without a partner is told on standard error.
# Run it with: ./awk -f examples/join.awk examples/prices.txt examples/orders.txt
FILENAME != first && NR == 1 { first = FILENAME }
FILENAME == first { price[$1] = $2; next }
$1 in price { print $2, $3 " x " $1, $3 * price[$1]; next }
{ print "no price: " $1 > "/dev/stderr" }
