BEGIN { for (i = 0, j = 9; i < j; i++) print i }
