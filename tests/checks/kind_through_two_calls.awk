function f(a) { a[1] = 1 } function g(b) { f(b) } BEGIN { x = 1; g(x) }
