# The host, the status and the path of each failed request of a log. It treats each record for itself, so that it may run on
# pieces of its input, as `awk-check --pieces -f examples/errors.awk` tells.
# Run it with: ./awk -f examples/errors.awk examples/access.log
NF == 6 && $5 >= 400 { print $1, $5, $4 }
