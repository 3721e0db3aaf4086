#!/bin/sh
# Times reading program texts of a megabyte, of as many kinds as there are forms: the seconds of the processor, and the peak
# memory and the answer of this awk. Nothing is run: a text is refused once it is read, or has an empty input. The column
# `parse` is this awk's with a `)` behind the text: no program begins so, and it ends where the text is lexed and parsed. A
# `*` stands behind the seconds of an awk that ends with another status than 0, `-` where it takes more than 20 seconds.
# Needs GNU time, timeout and yes.
#
#   bench/reading.sh [ROUNDS [EXECUTABLE]]    without an executable: the one that the launcher builds
set -eu
export LC_ALL=C

rounds=${1:-3}
root=$(CDPATH='' cd "$(dirname "$0")/.." && pwd -P)
work=$(mktemp -d)
trap 'rm -rf "$work"' EXIT

if [ "$#" -lt 2 ]; then
    "$root/awk" '' </dev/null
    set -- "$rounds" "$root/out/awk"
fi
executable=$2

. "$root/bench/rounds.sh"
names="parse $names"

# The bytes of a text, about.
size=1000000
: >"$work/kinds"

# A text that is repeated, in lines of its own, between a head and an end.
lines() { # NAME HEAD TEXT [END]
    echo "$1" >>"$work/kinds"
    {
        printf %s "$2"
        yes -- "$3" | head -n "$((size / (${#3} + 1)))"
        printf %s "${4-}"
    } >"$work/$1"
}

# The same without newlines.
joined() { # NAME HEAD TEXT [END]
    echo "$1" >>"$work/kinds"
    {
        printf %s "$2"
        yes -- "$3" | head -n "$((size / ${#3}))" | tr -d '\n'
        printf %s "${4-}"
    } >"$work/$1"
}

# A text as often before the middle as another behind it.
nested() { # NAME HEAD TEXT MIDDLE TEXT [END]
    echo "$1" >>"$work/kinds"
    count=$((size / (${#3} + ${#5})))
    {
        printf %s "$2"
        yes -- "$3" | head -n "$count" | tr -d '\n'
        printf %s "$4"
        yes -- "$5" | head -n "$count" | tr -d '\n'
        printf %s "${6-}"
    } >"$work/$1"
}

# Other names, numbers or texts in each line.
numbered() { # NAME HEAD BEFORE BEHIND [END]
    echo "$1" >>"$work/kinds"
    {
        printf %s "$2"
        seq "$((size / (${#3} + ${#4} + 6)))" | sed "s|.*|$3&$4|"
        printf %s "${5-}"
    } >"$work/$1"
}

lines 'many rules' '' '/a[0-9]/ { $2 }'
lines 'many BEGIN' '' 'BEGIN { }'
lines 'many patterns alone' '' 'x'
lines 'many functions' '' 'function f(a, b) { return a }'
lines 'many statements' '{ ' '  x = x y / 2' '}'
lines 'many prints' '{ ' '  print x, $1, "a" > "f"' '}'
lines 'many assignments of fields' '{ ' '  $1 = $2; x++' '}'
numbered 'many names' '{ ' '  x' ' = 1' '}'
numbered 'many numbers' '{ ' '  x = ' '' '}'
numbered 'many strings' '{ ' '  x = "' '\\n\\101"' '}'
joined 'only ;' '{' ';' '}'
joined 'only ; between items' '' ';'
lines 'only newlines' '' ''
joined 'only blanks' '' ' '
lines 'only comments' '' '# a comment'
joined 'one comment' '#' 'x'
lines 'lines that go on' '{ x = 1 \
' '\' '}'
joined 'one name' '{ ' 'x' '}'
joined 'one string' '{ x = "' 'x' '" }'
joined 'escapes' '{ x = "' '\t' '" }'
joined 'one pattern' '/' 'x' '/'
joined 'one pattern that is too large' '/' 'x*' '/'
joined 'one long list' '{ print 1' ', 1' '}'
joined 'one call' '{ f(1' ', 1' ')}'
joined 'one list of parameters' 'function f(a' ', a' ') { }'
joined 'one concatenation' '{ x = ' '"a" ' '}'
joined 'one sum' '{ x = 1' '+1' '}'
joined 'one product' '{ x = 1' '*x' '}'
joined 'one chain of &&' '{ x = 1' '&&y' '}'
joined 'one chain of in' '{ x' ' in a' '}'
joined 'one chain of pipes' '{ x' '|getline' '}'
joined 'powers' '{ x = 1' '^2' '}'
joined 'signs' '{ x = ' '!' '1 }'
joined 'fields of fields' '{ x = ' '$' '1 }'
joined 'assignments to the right' '{ ' 'x=' '1 }'
joined 'conditions to the right' '{ x = ' '1?1:' '1 }'
nested 'conditions between' '{ x = ' '1?' 1 ':1' '}'
joined 'open blocks' '' '{'
nested 'pairs of blocks' '' '{' ';' '}'
joined 'open parentheses' '{ x = ' '('
nested 'pairs of parentheses' '{ x = ' '(' 1 ')' '}'
nested 'elements of elements' '{ x = ' 'a[' 1 ']' '}'
nested 'calls of calls' '{ x = ' 'f(' 1 ')' '}'
nested 'getline from getline' '{ x = ' '(getline<' 1 ')' '}'
joined 'if in if' '{ ' 'if(1)' '; }'
joined 'else behind else' '{ ' 'if(1);else ' '; }'
joined 'while in while' '{ ' 'while(1)' '; }'
joined 'for in for' '{ ' 'for(;;)' '; }'
nested 'do in do' '{ ' 'do ' ';' 'while(1);' '}'
joined 'no program at its last byte' '{' ';' ')'

# Reads one of them, and notes the seconds and the peak memory.
measure() { # NAME TEXT
    text=$2
    case $1 in
    parse) command=$executable text="$2)" ;;
    this) command=$executable ;;
    *) command=$1 ;;
    esac
    code=0
    command time -q -f '%U %S %M' -o "$work/$1.time" timeout 20 "$command" -f "$work/$text" </dev/null \
        >"$work/$1.output" 2>&1 || code=$?
    # (hundredths, as whole numbers with no zero in front)
    read -r user system memory <<SECONDS
$(sed 's/\.//g; s/^0*\([0-9]\)/\1/; s/ 0*\([0-9]\)/ \1/' "$work/$1.time")
SECONDS
    hundredths=$((user + system))
    printf '%d.%02d %s\n' "$((hundredths / 100))" "$((hundredths % 100))" "$memory" >>"$work/$1.times"
    case $code in
    0) : >"$work/$1.mark" ;;
    124) echo - >"$work/$1.mark" ;;
    *) echo '\*' >"$work/$1.mark" ;;
    esac
}

head_of_table text bytes answer 'peak memory, KB'
while read -r kind; do
    {
        cat "$work/$kind"
        printf '\n)'
    } >"$work/$kind)"
    take_rounds "$kind"
    printf '| %s | %s | %s | %s |' "$(in_table "$kind")" "$(wc -c <"$work/$kind")" \
        "$(head -n 1 "$work/this.output" | sed 's/.*refusal //' | cut -c 1-40)" "$(peak_memory this)"
    for name in $names; do
        case $name$(cat "$work/$name.mark") in
        *-) printf ' - |' ;;
        parse*) printf ' %s |' "$(least_seconds "$name")" ;;
        *) printf ' %s%s |' "$(least_seconds "$name")" "$(cat "$work/$name.mark")" ;;
        esac
    done
    echo
done <"$work/kinds"
