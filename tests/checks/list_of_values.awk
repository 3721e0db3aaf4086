BEGIN { a = [1, 2]; print a }
