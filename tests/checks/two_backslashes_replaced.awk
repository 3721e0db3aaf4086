{ gsub(/\\/, "\\\\"); print }
