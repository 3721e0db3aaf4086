{ f(x) = 1 }
function f(a) { return a }
