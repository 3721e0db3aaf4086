{ s = "äöü"; t = "あい"; print s t totla } END { total = 1 }
