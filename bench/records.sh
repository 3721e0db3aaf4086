#!/bin/sh
# Times loops over records, beside the other awks of this machine: rules that read no field, patterns, printed records and
# fields, separators of every kind, empty lines and paragraphs; and prints the least seconds of the rounds. The log is made
# here: lines of some 100 bytes and 20 fields. Needs GNU time.
#
#   bench/records.sh [ROUNDS [LINES [EXECUTABLE]]]    without an executable: the one that the launcher builds
set -eu

rounds=${1:-3} lines=${2:-1000000}
root=$(CDPATH='' cd "$(dirname "$0")/.." && pwd -P)
work=$(mktemp -d)
trap 'rm -rf "$work"' EXIT

if [ "$#" -lt 3 ]; then
    "$root/awk" '' </dev/null
    executable=$root/out/awk
else
    executable=$3
fi

. "$root/bench/rounds.sh"

mawk -v n="$lines" 'BEGIN {
    for (i = 1; i <= n; i++)
        printf "%d host%d user GET /path/%d/index.html %d %d ms agent a b c d e f g h i j k l\n", i, i % 97, i % 1009, 200 + i % 5, i * 7 % 1000
}' >"$work/log"
mawk '{ gsub(/ /, ","); print }' "$work/log" >"$work/commas"
mawk '{ print; if (NR % 5 == 0) print "" }' "$work/log" >"$work/paragraphs"
mawk -v n="$lines" 'BEGIN { for (i = 0; i < n * 20; i++) print "" }' >"$work/empty"
mawk '{ printf "%s", $0; for (i = 0; i < 80; i++) printf " w%d", i; print "" }' "$work/log" | head -n 200000 >"$work/wide"

# Runs one of them with these words on an input, and notes its seconds and its peak memory.
measure() {
    name=$1 input=$2
    shift 2
    case $name in
    this) command=$executable ;;
    *) command=$name ;;
    esac
    LC_ALL=C command time -f '%e %M' -o "$work/$name.times" -a "$command" "$@" <"$work/$input" >"$work/$name.output"
    cmp -s "$work/this.output" "$work/$name.output" || echo "$name prints something else for $*" >&2
}

row() {
    take_rounds "$@"
    input=$1
    shift
    printf '| %s: `%s` |' "$input" "$(in_table "$*")"
    least_of_each
}

head_of_table 'input: words'
row log '{ }'
row log '/host13 /'
row log '/absent literal/'
row log '{ print }'
row log '{ print $1 }'
row log '{ print $2, $1 }'
row log '{ print $1 " " $9 ":" $4 }'
row log '{ n = n + $7 } END { print n }'
row log '$7 > 100 { n++ } END { print n }'
row log -F '[0-9]+' '{ n += NF } END { print n }'
row log -F ' +' '{ print $3 }'
row wide '{ print $50 }'
row commas -F , '{ print $3 }'
row commas -F ,+ '{ print $3 }'
row empty '{ n++ } END { print n }'
row paragraphs -v RS= '{ print $1, NF }'
row paragraphs -v RS= -F '\n' '{ print $2 }'
row log -v RS=g '{ print $2 }'
