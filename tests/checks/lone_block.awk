/foo/
{ count++ }

NR == 1

{ count++ }
$1 ~ /a/ &&
$2 { print }
function f(a)
{ return a }
END { print f(count) }
