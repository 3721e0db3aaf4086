{ x == 1; $1 ~ /a/; (x == 2); a[1] == 2; f(x) == 3; x = 2; y = x == 3; print y }
function f(a) { return a }
