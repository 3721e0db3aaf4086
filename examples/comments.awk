# C comments taken out by a machine of states: code, a string, and a comment that may go over several lines.
# Run it with: ./awk -f examples/comments.awk examples/hello.c
{
    out = ""
    for (i = 1; i <= length($0); i++) {
        c = substr($0, i, 1); two = substr($0, i, 2)
        if (state == "comment") { if (two == "*/") { state = ""; i++ } }
        else if (state == "string") { out = out c; if (c == "\\") out = out substr($0, ++i, 1); else if (c == "\"") state = "" }
        else if (two == "/*") { state = "comment"; i++ }
        else if (two == "//") break
        else { out = out c; if (c == "\"") state = "string" }
    }
    if (out ~ /[^ \t]/) print out
}
