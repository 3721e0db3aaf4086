BEGIN { print 1 } }
