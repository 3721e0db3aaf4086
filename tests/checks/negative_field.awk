{ print $-1 }
