function f(NF) { return NF }
BEGIN { print f(1) }
