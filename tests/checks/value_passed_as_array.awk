function f(p) { p[1] = 1 }
BEGIN { x = 1; f(x) }
