{ next; print }
/a/ { if ($1) next; print; exit
    # nothing but this
}
/b/ { if ($1) { next; print 1 } else next
    print 2 }
function f(a) { return a; a = 1 }
END { while (1) { if (x) break; x = f(1); continue; x = 2 } exit x; print }
