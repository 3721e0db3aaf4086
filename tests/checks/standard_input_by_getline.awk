BEGIN { while ((getline line < "-") > 0) print line }
