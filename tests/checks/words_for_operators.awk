$1 == 1 and not done { print; done = 1 }
