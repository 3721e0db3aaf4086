BEGIN { for i in a print i; a[1] }
