{ x = sprintf() }
