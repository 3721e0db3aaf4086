{ FS = ":"; print $1 }
NR == 1 { FS = "," }
{ print; FS = ";" }
BEGIN { FS = "x" }
