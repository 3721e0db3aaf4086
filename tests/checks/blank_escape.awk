{ gsub("\s+", " "); print }
