BEGIN {
    printf "%s %s\n", 1
    printf "%s\n", 1, 2
    printf("%d%% of %5.2d\n", 1)
    printf("%s\n") > "/dev/stderr"
    x = sprintf("%s %s", f(1, 2)) sprintf("none", 1)
    printf "%c", x > "/dev/stderr"
    printf "%s %s\n", f(1, 2), (1, 2) in a
    printf("%s %s\n", f(1, 2), a[1, 2]) | "cat"
    printf "%s" x, 1
    printf "%s %s\n",
        1, 2
    printf "100%%\n"
}
function f(a, b) { return a b }
