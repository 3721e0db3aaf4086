{
    if ($1 == 1) ;
        print
    if ($1 == 2) ; else print
    while ($1++ < 3) ;
    if ($1 == 4) { }
    if ((getline line < "f") > 0) ;
}
