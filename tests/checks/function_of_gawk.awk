{ print gensub(/a/, "b", "g") }
