{ if ($1)
    for (i = 1; i < 3; i++)
        print i
else
    print
print i }
