# Paragraphs wrapped to lines of at most so many bytes; blank lines separate them.
# Run it with: ./awk -v width=30 -f examples/wrap.awk examples/prose.txt
BEGIN { RS = "" }
NR > 1 { print "" }
{
    line = $1
    for (i = 2; i <= NF; i++) {
        if (length(line) + 1 + length($i) > width) { print line; line = $i }
        else line = line " " $i
    }
    print line
}
