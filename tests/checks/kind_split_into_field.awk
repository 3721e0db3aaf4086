{ split($0, $1) }
