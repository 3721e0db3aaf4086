function f(a) { a[1] = 1 }  function g(p) { f(p "") } BEGIN { g(1) }
