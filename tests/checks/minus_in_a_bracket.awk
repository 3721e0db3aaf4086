/[a-z-9]/ { print }
