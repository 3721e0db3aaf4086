{ if (!k in a) a[k] = 1; if (! $1 in a) print; if (!(k in a)) print; k = 2 }
