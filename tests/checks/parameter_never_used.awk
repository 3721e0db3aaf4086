function f(a, b) { return a }
BEGIN { print f(1) }
