{ FS = ":"; $0 = $0; print $1 }
