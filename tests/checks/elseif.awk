{ if (x) print 1; elseif (y) print 2 }
