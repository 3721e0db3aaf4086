BEGIN { print 1e3 }
