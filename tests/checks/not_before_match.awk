! x ~ "y" { x = 1; print }
{ if (! $1 ~ /a/) print; if (! ($1 ~ /a/)) print; if ($1 !~ /a/) print; if (! x == 1) print }
