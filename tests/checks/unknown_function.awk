BEGIN {
    x = 1
    print foo(x)
}
