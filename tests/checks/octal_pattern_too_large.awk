/\400/ { print }
