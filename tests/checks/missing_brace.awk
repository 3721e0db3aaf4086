BEGIN {
    if (x) {
        print 1
}
END { print 2 }
