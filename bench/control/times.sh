#!/bin/sh
# Times loops, operators, texts that are joined and loops over records, beside the other awks of this machine, and prints
# the least seconds of the rounds. Needs GNU time and seq.
#
#   bench/control/times.sh [ROUNDS [EXECUTABLE]]    without an executable: the one that the launcher builds
set -eu

rounds=${1:-3}
root=$(CDPATH='' cd "$(dirname "$0")/../.." && pwd -P)
work=$(mktemp -d)
trap 'rm -rf "$work"' EXIT

seq 1 500000 | sed 's/.*/word & line/' >"$work/input"

if [ "$#" -lt 2 ]; then
    "$root/awk" '' </dev/null
    set -- "$rounds" "$root/out/awk"
fi
executable=$2

. "$root/bench/rounds.sh"

# Runs one of them on the input, and notes its seconds and its peak memory.
measure() {
    case $1 in
    this) set -- "$1" "$executable" "$2" ;;
    *) set -- "$1" "$1" "$2" ;;
    esac
    LC_ALL=C command time -f '%e %M' -o "$work/$1.times" -a "$2" "$3" <"$work/input" >"$work/$1.output"
    cmp -s "$work/this.output" "$work/$1.output" || echo "$1 prints something else for $3" >&2
}

head_of_table program
while IFS= read -r program; do
    take_rounds "$program"
    printf '| `%s` |' "$(in_table "$program")"
    least_of_each
done <<'PROGRAMS'
BEGIN { for (i = 1; i <= 2000000; i++) s += i; print s % 1000 }
BEGIN { while (i < 1000000) { s = s + i * 3 - i % 7; if (s < 0) break; i++ } print s % 1000 }
BEGIN { for (i = 0; i < 1000000; i++) x = (i > 5 && i < 100) || i == 7 ? i : -i; print x }
BEGIN { for (i = 0; i < 500000; i++) t = i " " j ":" k; print t }
BEGIN { for (i = 0; i < 20000; i++) s = s "x"; print s }
{ n += $2 } END { print n % 1000 }
{ print $2 }
{ print }
{ }
PROGRAMS
