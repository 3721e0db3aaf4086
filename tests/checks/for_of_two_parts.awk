BEGIN { for (i = 0; i < length(x)) print }
