BEGIN { x = 1; print x / 0, x % 0; x /= 0; x %= 0 + 1; print 0 ^ 0, x / 0 ^ 0, x / 02 }
