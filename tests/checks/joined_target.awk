{ print > $4 ".out" }
