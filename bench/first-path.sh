#!/bin/sh
# Times the program of the first path on a million lines of a number and a word, beside the other
# awks of this machine, and prints a row for each: the least and the most seconds of the rounds, and
# the peak memory. Needs GNU time and seq.
#
#   bench/first-path.sh [ROUNDS]
set -eu

rounds=${1:-5}
root=$(CDPATH='' cd "$(dirname "$0")/.." && pwd -P)
program='$1 > 9 { print $2, $1 * 2 }'
work=$(mktemp -d)
trap 'rm -rf "$work"' EXIT

# Numbers from 00 to 99, and words of eleven bytes: 15 MB.
seq 1000001 2000000 | sed 's/^.*\(..\)$/\1 word&/' >"$work/input"

"$root/awk" "$program" <"$work/input" >"$work/expected"

. "$root/bench/rounds.sh"

# Runs one of them on the input, and notes its seconds and its peak memory.
measure() {
    case $1 in
    this) set -- "$1" "$root/out/awk" ;;
    *) set -- "$1" "$1" ;;
    esac
    LC_ALL=C command time -f '%e %M' -o "$work/$1.times" -a "$2" "$program" <"$work/input" >"$work/output"
    cmp -s "$work/expected" "$work/output" || echo "$1 prints something else" >&2
}

take_rounds

echo '| awk | seconds, least | seconds, most | peak memory, KB |'
echo '|---|---|---|---|'
for name in $names; do
    echo "| $name | $(least_seconds "$name") | $(most_seconds "$name") | $(peak_memory "$name") |"
done
