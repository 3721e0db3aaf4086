/a{1/ { print }
