{ for (k in seen) print k; seen = $1 }
