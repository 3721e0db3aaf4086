BEGIN { srand(); print int(rand() * 6) }
