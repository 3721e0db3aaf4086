{ n = split($0, $1) }
