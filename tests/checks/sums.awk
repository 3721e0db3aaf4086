#!/usr/bin/awk -f
# Counts and sums by host.

# as the log has them
BEGIN { FS = " "; limit = 400 } # from here on it is a failure

# } a comment with braces {
$5 >= limit { failed[$1 "}"]++ }   # not { this
{ n[$1]++ ; bytes [ $1 ] += $6 }
/\/{2}#/ { odd += 1 }; END { print "odd {", odd } ; BEGIN { OFS = "#" }

# the report
# of all hosts
END {
    for (host in n) # each }
        print host, n[host], bytes[host] + 0
}
END{print "end"}{ all++ } # behind
# last words
