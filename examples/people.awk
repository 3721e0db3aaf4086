# A table with colons as a table with commas: the name, the number and the shell of each line, under a heading.
# Run it with: ./awk -F : -v OFS=, -f examples/people.awk examples/people.txt
BEGIN { print "name", "number", "shell" }
{ print $1, $3, $7 }
