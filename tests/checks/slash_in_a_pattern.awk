/usr/lib/ { print }
