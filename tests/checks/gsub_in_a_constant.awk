{ gsub(/a/, "b", "abc") }
