{ total += $1; n++ }
end { print totla, Total }
n > 9 { pritn; print true }
