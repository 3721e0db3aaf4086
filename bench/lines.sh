#!/bin/sh
# Times programs that count the lines of a file in which a pattern is found, beside the other awks of this machine, and
# prints a row for each pattern: how many lines match, and the least seconds of the rounds. A run is stopped after 20
# seconds. Needs GNU time, timeout, seq, sed, tr and paste.
#
#   bench/lines.sh [ROUNDS]
set -eu

rounds=${1:-3}
limit=20
. "$(dirname "$0")/executable.sh"

# Two million lines of a log, of some fifty bytes each; one line of 1,000,000 bytes; 114,000 lines of
# 49 bytes a and b, by the digits of numbers.
seq 1000001 3000000 | sed \
    -e 's/^.*\(.\)\(..\)\(.\)$/GET \/page\/&\/item\2x\1 HTTP\/1.1 status \1\3\2 ab\2c/' \
    -e 's/status 3\(.\)7.*/status 404/' >"$work/log"
head -c 1000000 /dev/zero | tr '\0' a >"$work/long"
echo >>"$work/long"
seq 1000001 3 3400000 | tr 1357902468 aaaaabbbbb | paste -s -d '\0\0\0\0\0\0\n' - >"$work/pairs"

. "$root/bench/rounds.sh"

# Runs one of them on an input, and notes its seconds.
measure() {
    case $1 in
    this) set -- "$1" "$3" "$executable" "/$2/ { n++ } END { print n + 0 }" ;;
    *) set -- "$1" "$3" "$1" "/$2/ { n++ } END { print n + 0 }" ;;
    esac
    ! LC_ALL=C command time -q -f '%e' -o "$work/$1.times" -a timeout "$limit" "$3" "$4" \
        <"$work/$2" >"$work/$1.output" || cmp -s "$work/this.output" "$work/$1.output" ||
        echo "$1 counts something else for $4" >&2
}

# A row: the least seconds of each.
row() {
    take_rounds "$1" "$2"
    printf '| `%s` | %s | %s |' "$(in_table "$1")" "$2" "$(cat "$work/this.output")"
    least_of_each
}

head_of_table pattern input lines
for pattern in 'abc' '[0-9]+x' '(a|b)*c' '^GET .* 404$' 'missing'; do
    row "$pattern" log
done
row '(a*)*b' long
row 'a(a|b){6}c' pairs
row 'a(a|b){9}c' pairs
