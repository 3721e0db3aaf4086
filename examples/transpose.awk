# A table with its rows as columns.
# Run it with: ./awk -f examples/transpose.awk examples/grid.txt
{ for (i = 1; i <= NF; i++) cell[NR, i] = $i; if (NF > width) width = NF }
END {
    for (i = 1; i <= width; i++) {
        line = cell[1, i]
        for (j = 2; j <= NR; j++) line = line " " cell[j, i]
        print line
    }
}
