{ if ($1 > 3) break }
