BEGIN {
    while (getline line < "f") n++
    while ((getline line < "f")) n++
    while ((getline line < "f") > 0) n++
    while (0 < (getline line < "f")) n++
    while ((getline < "f") == 1) n++
    while ("ls" | getline) n++
    while (getline) n++
    print n
}
