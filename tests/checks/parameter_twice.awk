function f(a, a) { return a }
BEGIN { print f(1) }
