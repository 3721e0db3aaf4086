BEGIN { NF[1] = 2 }
