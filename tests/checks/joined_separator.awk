BEGIN { re = "x"; FS = "(a" re ")" } { print $1 }
