BEGIN {
    slashes = "/"
    while (count++ < 300) {
        slashes = slashes "/"
        print count >("/dev" slashes "null")
    }
}
