{ return 1 }
