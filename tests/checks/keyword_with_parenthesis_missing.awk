BEGIN { println("a") }
