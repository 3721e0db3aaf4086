# The requests of a log that failed, numbered, and the lines that are no requests.
# Run it with: ./awk -f examples/failed.awk examples/access.log
$5 ~ /^[45][0-9]{2}$/ { n = n + 1; print n ": " $5 " " $4 " for " $1 }
$0 !~ /^[0-9.]+ \[/ { print FILENAME ":" NR ": " $0 }
