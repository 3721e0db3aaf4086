/[^\s]/ { print }
