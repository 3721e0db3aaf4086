{ if (x = 1) print }
$1 = "a" { print }
{ x = $2; while ((y = x) > 3) x-- }
