{ n = split($0, a, //); print n, a[1] }
