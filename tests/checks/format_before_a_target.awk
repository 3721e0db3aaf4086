{ printf "%y" > "out"; printf("%z"); printf "%y" | "cat" }
