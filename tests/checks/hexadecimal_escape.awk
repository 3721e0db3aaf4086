BEGIN { printf "\x41" }
