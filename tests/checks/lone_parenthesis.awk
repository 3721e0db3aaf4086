/a)b/
