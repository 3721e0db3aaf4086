BEGIN { w = 5; s = sprintf("%" w "d", 3); print s }
