# Makes $work/log: lines of 50 bytes, 40,000 of them (two megabytes) as often as $megabytes need. They have ten hosts, and 40,000
# pairs of a host and a page.
seq 10000 49999 |
    sed 's/^\(.\)\(.\)\(.\)\(.\)\(.\)$/192.0.2.\3 [1\1:\2\3:\4\5] GET \/page\/&.html \10\5 \2\3\4/' >"$work/part"
count=$(((megabytes + 1) / 2))
while [ "$count" -gt 0 ]; do
    count=$((count - 1))
    cat "$work/part"
done >"$work/log"
