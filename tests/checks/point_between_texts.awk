BEGIN { print "a" . "b" }
