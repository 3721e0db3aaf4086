BEGIN { var x = 1; print x }
