{ print sqrt($1) }
