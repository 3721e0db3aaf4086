{ print | "sort" > "out" }
