# Amounts like 12.5, 3 or -0.07 in a table with commas, added exactly: they are read as cents and written with a point.
# Run it with: ./awk -F , -f examples/cents.awk examples/amounts.csv
function cents(text,    part, sign) {
    sign = text ~ /^ *-/ ? -1 : 1
    sub(/^ *[-+]?/, "", text)
    split(text, part, ".")
    return sign * (part[1] * 100 + substr(part[2] "00", 1, 2))
}
function money(n) {
    return sprintf("%s%d.%02d", n < 0 ? "-" : "", (n < 0 ? -n : n) / 100, (n < 0 ? -n : n) % 100)
}
NR > 1 { sum[$1] += cents($3); all += cents($3) }
END {
    for (name in sum) printf "%-8s %10s\n", name, money(sum[name])
    printf "%-8s %10s\n", "all", money(all)
}
