{ $1 = gsub(/a/, "b", $1); $0 = gsub(/a/, "b"); x = sub(/a/, "", x); print x }
{ n = gsub(/a/, "b"); $2 = gsub(/,/, "&"); $3 = gsub(/a/, "b", $4); $NF = sub(/a/, "", $NF); print n }
