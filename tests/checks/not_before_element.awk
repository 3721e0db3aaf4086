! seen[$1] ~ /x/
