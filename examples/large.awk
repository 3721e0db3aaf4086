# The files of at least so many bytes: their names, and what they are above it.
# Run it with: ./awk -v least=100000 -f examples/large.awk examples/sizes.txt
$1 >= least { print $2, $1 - least }
