BEGIN { IGNORECASE = 1; FPAT = "[a-z]+" }
BEGINFILE { print FILENAME }
/a/ { print RT, PROCINFO["pid"] }
