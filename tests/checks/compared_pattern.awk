$1 == /re/ { print }
{ if ($2 != /x/) print; if (/a/ == /b/) print; if (/a/ == 0) print; x = /a/; print x }
