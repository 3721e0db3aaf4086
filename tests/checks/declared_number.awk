BEGIN { int x = 1; print x }
