{ print substr(index(a, b), 1, 2, 3) }
