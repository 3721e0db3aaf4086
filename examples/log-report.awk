# A log as a report: the requests and the bytes of each status, the most asked for page, and the hosts with a failure.
# Run it with: ./awk -f examples/log-report.awk examples/access.log
NF == 6 {
    n[$5]++
    bytes[$5] += $6
    if (++asked[$4] > most) { most = asked[$4]; page = $4 }
}
NF == 6 && $5 >= 400 { failed[$1]++ }
END {
    for (status in n) printf "%s %5d requests %7d bytes\n", status, n[status], bytes[status]
    print "most asked for: " page " (" most ")"
    for (host in failed) print host " failed " failed[host] (failed[host] == 1 ? " time" : " times")
}
