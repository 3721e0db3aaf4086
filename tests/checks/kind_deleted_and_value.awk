BEGIN { delete x; x = 1 }
