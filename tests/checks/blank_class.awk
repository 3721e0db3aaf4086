/\s+/ { print }
