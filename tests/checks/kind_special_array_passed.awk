function f(p) { return p + 1 } BEGIN { print f(ARGV) }
