function f(p) { return length(p) } BEGIN { a[1] = 1; print f(a) }
