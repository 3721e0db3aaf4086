function f(a) { a[1] = 1 }  BEGIN { f(f(1)) }
