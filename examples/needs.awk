# What a makefile's target needs, in the order in which it has to be made: each need stands before what needs it.
# Run it with: ./awk -v target=program -f examples/needs.awk examples/rules.mk
function make(name,    list, i, n) {
    if (name in made) return
    made[name]
    n = split(needs[name], list)
    for (i = 1; i <= n; i++) make(list[i])
    print name
}
/^[^\t#:]+:/ {
    colon = index($0, ":")
    needs[substr($0, 1, colon - 1)] = needs[substr($0, 1, colon - 1)] " " substr($0, colon + 1)
}
END { make(target) }
