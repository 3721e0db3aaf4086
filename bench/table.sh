#!/bin/sh
# Times programs that fill, read, walk and empty arrays of 1,000,000 keys, beside the other awks of this machine, and
# prints a row for each task: the least seconds of the rounds, and the peak memory in MB. A run is stopped after 20
# seconds. Needs GNU time and timeout.
#
#   bench/table.sh [ROUNDS]
set -eu

rounds=${1:-3}
limit=20
. "$(dirname "$0")/executable.sh"
. "$root/bench/rounds.sh"
! command -v original-awk >/dev/null || names="$names original-awk"

# Runs one of them at a task, and notes its seconds and its peak memory.
measure() {
    name=$1
    case $name in
    this) set -- "$executable" "$2" ;;
    *) set -- "$name" "$2" ;;
    esac
    ! LC_ALL=C command time -q -f '%e %M' -o "$work/$name.times" -a timeout "$limit" "$@" \
        </dev/null >"$work/$name.output" || cmp -s "$work/this.output" "$work/$name.output" ||
        echo "$name counts something else: $*" >&2
}

# A row: the least seconds and the peak memory of each.
row() {
    take_rounds "$2"
    printf '| %s |' "$1"
    for name in $names; do
        printf ' %s s, %s MB |' "$(least_seconds "$name")" "$(($(peak_memory "$name") / 1000))"
    done
    echo
}

head_of_table '1,000,000 keys'

each='for (i = 0; i < 1000000; i++)'
key='a["key" (1000000 + i)]'
texts="$each $key = i"
numbers="$each a[i] = i"
sum='print s % 1000'
count='for (k in a) n++; print n + 0'
walk='for (k in a) n += length(k); print n'
both="for (i = 0; i < 500000; i++) { a[i] = i; $key = i }"
rotate="$each { delete $key; $key = i }"
row 'texts put' "BEGIN { $texts; print 1000000 }"
row 'texts put and read' "BEGIN { $texts; $each s += $key; $sum }"
row 'numbers put and read' "BEGIN { $numbers; $each s += a[i]; $sum }"
row 'texts put and walked' "BEGIN { $texts; $walk }"
row 'numbers put and walked' "BEGIN { $numbers; $walk }"
row 'numbers and texts put in turn' "BEGIN { $both; print 1000000 }"
row 'the same, and walked' "BEGIN { $both; $walk }"
row 'texts put and removed, first to last' "BEGIN { $texts; $each delete $key; $count }"
row 'texts put and removed, last to first' \
    "BEGIN { $texts; for (i = 999999; i >= 0; i--) delete $key; $count }"
row 'texts put and removed, scattered' \
    "BEGIN { $texts; $each delete a[\"key\" (1000000 + i * 524287 % 1000000)]; $count }"
row 'texts put, each removed and put again' "BEGIN { $texts; $rotate; print 1000000 }"
row 'the same, and then walked' "BEGIN { $texts; $rotate; $walk }"
