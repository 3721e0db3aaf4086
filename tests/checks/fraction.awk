BEGIN { x = 3.14; print x }
