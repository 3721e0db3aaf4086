{ 2nd = $2; print 2nd }
