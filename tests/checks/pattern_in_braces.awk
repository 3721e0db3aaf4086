{ $1 == "a" { print } }
