BEGIN {
    print "hello
}
