#!/bin/sh
# A program that sums up, over a file, on all processors of the machine, in two stages.
# Run it with: examples/added-pieces.sh ./awk examples/hosts.awk examples/access.log
#
# awk-check prints the programs of the stages, and why there are none where the program isn't known to run so. The first
# one prints the sums of each piece, and the second one adds these up and does what END does. Where a piece fails, parallel
# ends, and nothing is printed. Words behind the file are options of all runs, as -F:. AWK_CHECK is the checker, if not
# the one beside the awk.
set -u
awk=$1 program=$2 file=$3
shift 3
check=${AWK_CHECK:-$(dirname "$awk")/awk-check}
room=$(mktemp -d) || exit 1
trap 'rm -rf "$room"' EXIT
trap 'exit 1' HUP INT TERM

"$check" --each "$@" -f "$program" >"$room/each.awk" && "$check" --all "$@" -f "$program" >"$room/all.awk" &&
    parallel --quote --pipepart --keep-order --block -1 --halt now,fail=1 --arg-file "$file" \
        "$awk" "$@" -f "$room/each.awk" >"$room/sums" &&
    "$awk" "$@" -f "$room/all.awk" <"$room/sums"
