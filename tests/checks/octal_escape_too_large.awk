BEGIN { print "\777" }
