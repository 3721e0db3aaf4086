{ switch (x) { case 1: print } }
