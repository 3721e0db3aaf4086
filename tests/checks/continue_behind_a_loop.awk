BEGIN { while (n < 3) n++; continue }
