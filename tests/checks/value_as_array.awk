BEGIN {
    s = "x"
    s[1] = 2
}
