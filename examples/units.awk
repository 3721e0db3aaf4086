# Sizes with a unit (K, M, G by 1024) in all, by kind, and written with the largest unit that leaves a whole number.
# Run it with: ./awk -f examples/units.awk examples/disks.txt
function bytes(text) {
    return text * 1024 ^ index("KMG", substr(text, length(text)))
}
function short(n,    i) {
    for (i = 0; i < 3 && n > 0 && n % 1024 == 0; i++) n /= 1024
    return n substr("KMG", i, i > 0)
}
{ total[$1] += bytes($2); all += bytes($2) }
END { for (kind in total) print kind, short(total[kind]); print "all", short(all) }
