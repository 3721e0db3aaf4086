# The hours of each day, and their running total.
# Run it with: ./awk -f examples/total.awk examples/hours.txt
{ total = total + $2; print $1, $2, total }
