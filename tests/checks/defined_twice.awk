function f(a) { return a }
function f(b) { return b + 1 }
BEGIN { print f(1) }
