{ print $NF-1, $NF - 1, $(NF-1), $NR-1, $NF-x; x = 1 }
