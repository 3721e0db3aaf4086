function f(x) { return f(x + 1) }
function g(x) { x++; g(x); print x }
function h(x) { return x; h(x) }
function i(x) { return x < 1 ? 1 : x * i(x - 1) }
function j(x) { if (x) j(x - 1) }
function k(x) { return x && k(x - 1) }
function l(x) { return m(x) }
function m(x) { return l(x) }
BEGIN { f(1); g(1); h(1); i(1); j(1); k(1); l(1) }
