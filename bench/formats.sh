#!/bin/sh
# Compares what this awk prints for random formats with what the other awks of this machine print, byte for byte, and
# times a million lines of one format beside them. It prints how many of the formats each awk prints as this one does,
# with some of the others, and a row of the least seconds of the rounds. Needs mawk, gawk, GNU time and paste.
#
#   bench/formats.sh [ROUNDS [FORMATS [SEED]]]
set -eu

rounds=${1:-3}
formats=${2:-20000}
seed=${3:-1}
. "$(dirname "$0")/executable.sh"

. "$root/bench/rounds.sh"
! command -v original-awk >/dev/null || names="$names original-awk"

# Formats of one to three directives with plain bytes between them: all conversions and flags, widths
# and precisions below 30, numbers of so many bits (no negative ones for `o`, `u`, `x` and `X`), and no
# combination that the standard leaves undefined.
random_formats() {
    LC_ALL=C mawk -v seed="$seed" -v count="$formats" -v bits="$1" '
function pick(n) { return int(rand() * n) }
function flags(allowed,  n, text) {
    for (n = pick(4); n > 0; n--) text = text substr(allowed, 1 + pick(length(allowed)), 1)
    return text
}
BEGIN {
    srand(seed)
    kinds = split("d i o u x X c s", conversion, " ")
    plains = split("|a|%%|x=|, |100%% ", plain, "|")
    words = split("|a|abc|a longer text|%d|-12|0", word, "|")
    allowed["d"] = allowed["i"] = "-+ 0"
    allowed["u"] = "-0"
    allowed["o"] = allowed["x"] = allowed["X"] = "-#0"
    allowed["c"] = allowed["s"] = "-"
    for (k = 0; k < count; k++) {
        format = ""
        values = ""
        for (n = 1 + pick(3); n > 0; n--) {
            c = conversion[1 + pick(kinds)]
            format = format plain[1 + pick(plains)] "%" flags(allowed[c])
            if (rand() < 0.6) format = format (1 + pick(29))
            if (c != "c" && rand() < 0.4) format = format "." (rand() < 0.8 ? pick(30) : "")
            format = format c
            number = rand() < 0.1 ? 0 : int(2 ^ (rand() * bits))
            if (c ~ /[di]/ && rand() < 0.5) number = -number
            if (c == "s" || c == "c" && rand() < 0.5) values = values "\tt" word[1 + pick(words)]
            else if (c == "c") values = values "\tn" (32 + pick(224))
            else values = values sprintf("\tn%.0f", number)
        }
        print format plain[1 + pick(plains)] values
    }
}'
}

# The lines that an awk, by its words, prints for the formats.
print_lines() { # NAME AWK..
    name=$1
    shift
    LC_ALL=C "$@" -F '\t' '{
        for (i = 2; i <= NF; i++) value[i] = substr($i, 1, 1) == "n" ? substr($i, 2) + 0 : substr($i, 2) ""
        printf $1 "\n", value[2], value[3], value[4]
    }' "$work/formats" >"$work/$name.lines"
}

# What another awk prints for them, and how much of it is the same.
compare() {
    case $1 in
    gawk) print_lines gawk gawk --posix ;;
    *) print_lines "$1" "$1" ;;
    esac
    paste -d '\n' "$work/formats" "$work/this.lines" "$work/$1.lines" | LC_ALL=C gawk -v name="$1, $2 bits" '
        NR % 3 == 1 { format = $0 }
        NR % 3 == 2 { ours = $0 }
        NR % 3 == 0 {
            if ($0 "" == ours "") same++
            else if (format ~ /c/ && $0 ~ /\0/) empty++
            else if (format ~ /#[-#0]*[0-9]*\.[0-9]*o/) octal++
            else if (other++ < 10) others = others "\n  " format "\n    " ours "\n    " $0
        }
        END {
            print name ": " same + 0 " of " NR / 3 " the same; " \
                empty + 0 " print a byte 0 for %c of the empty text, " \
                octal + 0 " write %#.o otherwise, " other + 0 " differ else" others
        }'
}

for bits in 31 53; do
    random_formats "$bits" >"$work/formats"
    print_lines this "$executable"
    for name in $names; do
        [ "$name" = this ] || compare "$name" "$bits"
    done
done

# Prints a million lines by one of them, and notes its seconds.
measure() {
    case $1 in
    this) set -- "$1" "$executable" "$2" ;;
    *) set -- "$1" "$1" "$2" ;;
    esac
    set -- "$1" "$2" "BEGIN { for (n = 0; n < 1000000; n++) printf \"$3\\n\", n, \"abc\", n, n }"
    LC_ALL=C command time -f '%e' -o "$work/$1.times" -a "$2" "$3" </dev/null >"$work/$1.output"
    cmp -s "$work/this.output" "$work/$1.output" || echo "$1 prints something else" >&2
}

head_of_table format
for format in '%8d|%-6s|%06d|%x' '%d %s %d %d' '%5d,%.2s,%+d,%#o'; do
    take_rounds "$format"
    printf '| `%s` |' "$(in_table "$format")"
    least_of_each
done
