BEGIN { x = 5 if (x > 3) print }
