$1 =~ /a/ { print }
