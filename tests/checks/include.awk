@include "lib.awk"
BEGIN { f() }
