function factor(n) {
    return n < 2 ? 1 : n * factor(n - 1)
}
function last(n) {
    done(n)
    last(n - 1)
}
function done(n) { if (n < 0) exit }
BEGIN {
    FS = ":"
    while ((getline line < "f") > 0) n++
    printf "%d%% of %s\n", 10 / 2 ^ 0, factor(3)
    printf("%s\n", "a") > "out"
    if ((x = n) > 2) print x
}
/a/ == /b/ { next }
$1 !~ /x/ && !($2 in seen) { seen[$2]; print $(NF-1), $NF - 1 }
NR == 1

{ $1 = $1; n += gsub(/,/, "&"); x = -1; print x > "out"; close("out") }
{
    if ($1) ; else print
    if ($2) next
    exit n
}
{
    while (getline line && n++ < 10) ;
    while (getline && $1 < 5) n++
    while (getline line < "f" && n) n--
    printf ("%") "d\n", n
    printf "%s %s\n", "date" | getline, n
    x /= 0 ? 1 : 2
    x /= 0 || n
    x = getline < 2 ^ 200
    last(x)
}
$2 ~ "(" | getline
