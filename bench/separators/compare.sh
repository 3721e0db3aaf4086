#!/bin/sh
# Whether random inputs are cut into the records and fields of other awks: for each of them, how many ended otherwise, by
# the value of FS, and the first few of these.
#
#   bench/separators/compare.sh [COUNT [SEED [FOLDER]]]
#
# The programs, their inputs and what came of them are left in FOLDER, if one is given.
set -eu

. "$(dirname "$0")/../random.sh"
"$root/bench/separators/programs.py" "$work" "$count" "$seed"

# What a program prints, and its status.
of() {
    name=$1 n=$2
    shift 2
    { timeout 5 "$@" -f "$work/$n.awk" <"$work/$n.in" 2>/dev/null && echo "status 0" || echo "status $?"; } >"$work/$n.$name"
}

n=0
while [ "$n" -lt "$count" ]; do
    of this "$n" "$executable"
    of gawk "$n" gawk --posix
    of mawk "$n" mawk
    of original "$n" original-awk
    n=$((n + 1))
done

for name in gawk mawk original; do
    others=''
    n=0
    while [ "$n" -lt "$count" ]; do
        cmp -s "$work/$n.this" "$work/$n.$name" || others="$others $n"
        n=$((n + 1))
    done
    set -- $others
    echo "$name: $# of $count, such as $(echo "$others" | cut -c1-60)"
    for n; do
        sed -n 's/^BEGIN { \(.*\) }$/    \1/p' "$work/$n.awk"
    done | sort | uniq -c | sort -rn
done
