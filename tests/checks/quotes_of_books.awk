{ print “x” }
