{ print substr($0) }
