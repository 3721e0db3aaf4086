{ foreach (x in a) print x }
