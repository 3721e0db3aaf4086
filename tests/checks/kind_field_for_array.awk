function f(a) { a[1] = 1 }  { f($1) }
