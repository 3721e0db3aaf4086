# The requests and the bytes of each host of a log. It sums up what each record gives, so that it may run on pieces of its
# input in two stages, whose programs `awk-check --each` and `awk-check --all -f examples/hosts.awk` print.
# Run it with: ./awk -f examples/hosts.awk examples/access.log
NF == 6 { n[$1]++; bytes[$1] += $6 }
END { for (host in n) print host, n[host], bytes[host] }
