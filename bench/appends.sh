#!/bin/sh
# Times programs that append one byte after another to a text, beside the other awks of this machine. It prints a row
# for each number of appends: the least seconds of the rounds. A run is stopped after 20 seconds. Needs GNU time and
# timeout.
#
#   bench/appends.sh [ROUNDS]
set -eu

rounds=${1:-3}
limit=20
. "$(dirname "$0")/executable.sh"
. "$root/bench/rounds.sh"

# Runs one of them, and notes its seconds.
measure() {
    case $1 in
    this) set -- "$1" "$2" "$executable" ;;
    *) set -- "$1" "$2" "$1" ;;
    esac
    ! LC_ALL=C command time -q -f '%e' -o "$work/$1.times" -a timeout "$limit" "$3" \
        "BEGIN { for (i = 0; i < $2; i++) s = s \"x\"; print length(s) }" </dev/null >"$work/output" ||
        [ "$(cat "$work/output")" = "$2" ] || echo "$1 prints something else" >&2
}

head_of_table appends
for count in 50000 100000 200000 400000; do
    take_rounds "$count"
    printf '| %s |' "$count"
    least_of_each
done
