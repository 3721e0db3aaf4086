# Each form of a statement.
function sum(n,  i, s) {
    for (i = 1; i <= n; i++)
        s += i
    return s
}

BEGIN {
    do {
        turns++
        if (turns == 2)
            continue
        else if (turns == 4)
            break
    } while (turns < 9)
    while (length(text) < 5)
        text = text "x"
    for (;;) {
        if (sum(3) > 5) { break }
    }
}

/r/
$2 == "some", $2 == 5 { seen[$1] = NR; next }
{ last = $1; if (NR < 0) exit 1; else ; }

END {
    for (name in seen) {
        print name, seen[name]
        delete seen[name]
    }
    print last, text
    exit 3
}
