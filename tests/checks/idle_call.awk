{ toupper($1); length($0); substr($1, 2) x; sub(/a/, "b"); match($0, /a/); tolower(x = 1); print x }
length($0) > 2
