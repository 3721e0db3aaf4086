BEGIN { print 1 }
{ print }
