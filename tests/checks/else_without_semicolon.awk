BEGIN { if (1) print "a" else print "b" }
