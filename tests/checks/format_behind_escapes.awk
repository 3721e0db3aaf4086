BEGIN { printf "\t\101\"a%ey\n", 1 }
