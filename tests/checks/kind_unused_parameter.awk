function f(p) { return 1 } BEGIN { a[1] = 1; print f(a) }
