#!/bin/sh
# Times programs that filter a log of 100 MB by a pattern, beside the other awks of this machine, and
# prints a row for each: the least and the most seconds of the rounds, and the peak memory. Needs GNU
# time, seq and sed.
#
#   bench/filter.sh [ROUNDS]
set -eu

rounds=${1:-3}
root=$(CDPATH='' cd "$(dirname "$0")/.." && pwd -P)
work=$(mktemp -d)
trap 'rm -rf "$work"' EXIT

# Two million lines of a log, each of some fifty bytes.
seq 1000001 3000000 | sed \
    -e 's/^.*\(.\)\(..\)\(.\)$/GET \/page\/&\/item\2x\1 HTTP\/1.1 status \1\3\2 ab\2c/' \
    -e 's/status 3\(.\)7/status 404 missing/' >"$work/input"

"$root/awk" '' </dev/null

. "$root/bench/rounds.sh"

# Runs one of them on the input, and notes its seconds and its peak memory.
measure() {
    case $1 in
    this) set -- "$1" "$root/out/awk" "$2" ;;
    *) set -- "$1" "$1" "$2" ;;
    esac
    LC_ALL=C command time -f '%e %M' -o "$work/$1.times" -a "$2" "$3" <"$work/input" >"$work/$1.output"
    cmp -s "$work/this.output" "$work/$1.output" || echo "$1 prints something else for $3" >&2
}

echo '| program | awk | seconds, least | seconds, most | peak memory, KB | lines |'
echo '|---|---|---|---|---|---|'
for program in '/missing/' '/item[0-9]+x3 /' '/(status 1|status 2|ab)55c/' '/^GET .* 404 [a-z]+/'; do
    take_rounds "$program"
    for name in $names; do
        printf '| `%s` | %s | %s | %s | %s | %s |\n' "$(in_table "$program")" "$name" "$(least_seconds "$name")" \
            "$(most_seconds "$name")" "$(peak_memory "$name")" "$(wc -l <"$work/$name.output")"
    done
done
