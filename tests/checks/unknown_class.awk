/[[:alfa:]]/ { print }
