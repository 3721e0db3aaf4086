BEGIN { print a => b }
