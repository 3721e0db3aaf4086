#!/bin/sh
# Times a program that treats each record for itself over a log of 1,000 MB: one run, and four at a time on pieces of
# the log, by the recipe of examples/on-processors.sh; and prints a row for each: the seconds of all processors (user
# and system, those of parallel too) and those that went by, the least of the rounds. Where the outputs differ in a byte
# it ends, with status 1. The log is made here. Needs GNU time, GNU parallel, seq and sed.
#
#   bench/pieces.sh [ROUNDS [MEGABYTES [JOBS]]]
set -eu
export LC_ALL=C

rounds=${1:-3} megabytes=${2:-1000} jobs=${3:-4}
. "$(dirname "$0")/executable.sh"
. "$root/bench/rounds.sh"
. "$root/bench/log.sh"
names='one pieces'
# `awk-check --pieces` answers yes of it. It prints a quarter of the lines.
program=$root/examples/errors.awk

# Runs it in one way, and notes the seconds.
measure() {
    case $1 in
    one) set -- "$1" "$executable" -f "$program" "$work/log" ;;
    *) set -- "$1" parallel --quote --pipepart --keep-order --jobs "$jobs" --block -1 --halt now,fail=1 \
        --arg-file "$work/log" "$executable" -f "$program" ;;
    esac
    name=$1
    shift
    command time -q -f '%e %U %S' -o "$work/$name.times" -a "$@" </dev/null >"$work/$name.output" ||
        echo "$name fails" >&2
    cmp "$work/one.output" "$work/$name.output" >&2
}

# The least of user and system together.
least_of_processors() {
    "$executable" -F '[. ]' '{ n = ($3 + $5) * 100 + $4 + $6; printf "%d.%02d\n", n / 100, n % 100 }' "$work/$1.times" |
        sort -n | head -n 1
}

take_rounds
echo "| $megabytes MB | user and system | elapsed |"
echo '|---|---|---|'
for name in $names; do
    case $name in
    one) printf '| one run |' ;;
    *) printf '| %s at a time, on pieces |' "$jobs" ;;
    esac
    echo " $(least_of_processors "$name") | $(least_seconds "$name") |"
done
