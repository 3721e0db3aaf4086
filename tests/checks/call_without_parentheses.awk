BEGIN { print tolower "A" }
