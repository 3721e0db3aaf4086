BEGIN { printf "%5.2lf\n", 1 }
