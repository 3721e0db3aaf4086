{ print substr($0, 0, 3), substr($0, -1, 4), substr($0, 1, 2) }
