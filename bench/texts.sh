#!/bin/sh
# Runs this awk beside the others of this machine. First random cases of gsub, sub, match and substr, byte for byte: it
# prints how many of them each awk answers in another way, and the first few of those. Then times, a row for each: the
# least seconds of the rounds, of the processor in user mode, which other work on the machine changes least. A run is
# stopped after 60 seconds. Needs gawk, GNU time, timeout, seq, tr and paste.
#
#   bench/texts.sh [ROUNDS [CASES]]
set -eu

rounds=${1:-3}
cases=${2:-10000}
limit=60
. "$(dirname "$0")/executable.sh"

# Random cases. A line has a kind (gsub, sub or substr), a pattern, a replacement and a text with tabs
# between; of substr a start and a count stand in the place of the pattern and the replacement. Anchors
# stand at the ends of a pattern alone, where all awks read them as such.
cat >"$work/make_cases" <<'AWK'
function one_of(list, parts) { return parts[1 + int(rand() * split(list, parts, " "))] }
function letters(most, text, i) {
    text = ""
    for (i = int(rand() * (most + 1)); i > 0; i--) text = text one_of("a a b b c d . & \\")
    return text
}
function atom(depth) {
    if (depth > 0 && rand() < 0.25) return "(" pattern(depth - 1) ")"
    return one_of("a a b b c d . \\. [ab] [^a] [b-d] [[:alpha:]] [^[:alpha:]] &")
}
function piece(depth) { return atom(depth) (rand() < 0.4 ? one_of("* * + ? {2} {1,} {0,2} {1,3}") : "") }
function branch(depth, text, i) {
    text = piece(depth)
    for (i = int(rand() * 3); i > 0; i--) text = text piece(depth)
    return text
}
function pattern(depth, text, i) {
    text = branch(depth)
    for (i = int(rand() * 4) - 1; i > 0; i--) text = text "|" branch(depth)
    return text
}
function whole() {
    return (rand() < 0.08 ? "^" : "") pattern(2) (rand() < 0.08 ? "$" : "")
}
function replacement(text, i) {
    text = ""
    for (i = int(rand() * 5); i > 0; i--) text = text one_of("x - & && \\& \\\\ \\\\& \\\\\\& \\q")
    return text
}
BEGIN {
    srand(1)
    for (n = 0; n < count; n++) {
        kind = one_of("gsub gsub gsub sub substr")
        if (kind == "substr") print kind "\t" int(rand() * 24 - 8) "\t" int(rand() * 24 - 8) "\t" letters(12)
        else print kind "\t" whole() "\t" replacement() "\t" letters(12)
    }
}
AWK
cat >"$work/answer_cases" <<'AWK'
BEGIN { FS = "\t" }
$1 == "substr" { print substr($4, $2, $3); next }
{
    found = match($4, $2)
    text = $4
    n = $1 == "sub" ? sub($2, $3, text) : gsub($2, $3, text)
    print n "\t" found "\t" RLENGTH "\t" text
}
AWK

. "$root/bench/rounds.sh"
! command -v original-awk >/dev/null || names="$names original-awk"

gawk -v count="$cases" -f "$work/make_cases" >"$work/cases"
LC_ALL=C "$executable" -f "$work/answer_cases" <"$work/cases" >"$work/this.cases"
for name in $names; do
    case $name in
    this) continue ;;
    gawk) set -- gawk --posix ;;
    *) set -- "$name" ;;
    esac
    LC_ALL=C "$@" -f "$work/answer_cases" <"$work/cases" >"$work/$name.cases" 2>"$work/$name.errors" || :
    # One that reads no intervals isn't asked for them.
    intervals=$("$@" 'BEGIN { print match("aa", /^a{2}$/) }')
    paste -d '\n' "$work/cases" "$work/this.cases" "$work/$name.cases" |
        gawk -v name="$name" -v intervals="$intervals" '
            NR % 3 == 1 { row = $0; asked = intervals || $0 !~ /[{]/; all += asked }
            NR % 3 == 2 { this = $0 }
            NR % 3 == 0 && asked && this != $0 && ++n <= 8 { print "| `" row "` | `" this "` | `" $0 "` |" }
            END { print name " answers " n + 0 " of " all " cases in another way" }'
done
test -z "${KEEP_CASES-}" || cp "$work"/*cases "$KEEP_CASES"

# 36 MB of words of seven letters, six in a line; and 10 MB of them in one line.
seq 1000001 5500000 | tr 0123456789 aeioubcdfg | paste -d ' ' - - - - - - >"$work/words"
head -c 10000000 "$work/words" | tr '\n' ' ' >"$work/long"
echo >>"$work/long"

# Runs one of them on an input, and notes its seconds.
measure() {
    case $1 in
    this) set -- "$1" "$2" "$executable" "$3" ;;
    *) set -- "$1" "$2" "$1" "$3" ;;
    esac
    input=$2
    name=$1
    shift 2
    LC_ALL=C command time -q -f '%U' -o "$work/$name.times" -a timeout "$limit" "$@" \
        <"$work/$input" >"$work/$name.output" || echo "$name fails: $*" >&2
    cmp -s "$work/this.output" "$work/$name.output" || echo "$name answers something else: $*" >&2
}

# A row: the least seconds of each.
row() {
    take_rounds "$1" "$2"
    printf '| `%s` | %s |' "$(in_table "$2")" "$1"
    least_of_each
}

head_of_table program input
for input in words long; do
    row $input '{ gsub(/[aeiou]/, "x"); print }'
    row $input '{ gsub(/[aeiou]/, "<&>"); print }'
    row $input '{ gsub(/o*b/, "x"); print }'
    row $input '{ gsub(/z*/, "-"); print }'
done
row words '{ sub(/g.*f/, "x"); print }'
row words '{ print substr($0, 9, 7) }'
row words '{ n += index($0, "ggg") } END { print n }'
row words '{ n += index($0, "g") } END { print n }'
row words '{ n += index($0, "gabagab") } END { print n }'
row words '{ print toupper($0) }'
