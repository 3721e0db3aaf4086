/[\w-]+/ { print }
