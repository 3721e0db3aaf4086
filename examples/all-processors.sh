#!/bin/sh
# A program over a file: on pieces by all processors where awk-check knows that the program may run so, in two stages
# where it knows that of one that sums up, and else by one run. The bytes and the status are those of `awk -f PROGRAM
# FILE` each way; standard error says which way it was.
# Run it with: examples/all-processors.sh examples/errors.awk examples/access.log
#
# AWK_CHECK is the checker, if not the one in PATH or that of this repository; the awk lies beside it. JOBS is how many
# pieces there are, if not one for each processor. Nothing is printed before all has ended well, so the outputs lie in
# $TMPDIR meanwhile; where a run doesn't, they are thrown away and one run says what there is to say. (One thing isn't
# as in one run: a sum that leaves the range of numbers and comes back into it, which is fault 3 there, may stay in
# range in two stages.)
set -u
program=$1 file=$2
check=${AWK_CHECK:-$(command -v awk-check || echo "$(dirname "$0")/../awk-check")}
awk=$(dirname "$check")/awk
jobs=${JOBS:-$(getconf _NPROCESSORS_ONLN)}
room=

run_once() { # WHY
    [ -z "$room" ] || rm -rf "$room"
    echo "all-processors: one run: $1" >&2
    exec "$awk" -f "$program" "$file"
}

[ -f "$file" ] && [ -r "$file" ] || run_once "$file is no file that can be cut"
[ "$jobs" -gt 1 ] || run_once 'one processor'
room=$(mktemp -d) || run_once 'no room for the outputs of pieces'
trap 'rm -rf "$room"' EXIT
trap 'exit 1' HUP INT TERM

# Which way: the program of the pieces, and that of the second stage, where there is one.
each=$program all=
if "$check" --pieces -f "$program" >/dev/null 2>&1; then
    echo "all-processors: $jobs pieces" >&2
elif { "$check" --each -f "$program" >"$room/each.awk" && "$check" --all -f "$program" >"$room/all.awk"; } 2>/dev/null; then
    each=$room/each.awk all=$room/all.awk
    echo "all-processors: $jobs pieces, and what they sum up" >&2
else
    run_once "$program isn't known to run on pieces"
fi

# The piece of a number, cut behind newlines. What it prints counts where both ended well.
run_piece() { # NUMBER
    { split -n "l/$1/$jobs" "$file" && : >"$room/read.$1"; } 2>/dev/null | "$awk" -f "$each" >"$room/out.$1" 2>/dev/null &&
        [ -e "$room/read.$1" ] && : >"$room/done.$1"
}

number=0 outputs=
while [ "$number" -lt "$jobs" ]; do
    number=$((number + 1))
    run_piece "$number" &
    outputs="$outputs out.$number"
done
wait
number=0
while [ "$number" -lt "$jobs" ]; do
    number=$((number + 1))
    [ -e "$room/done.$number" ] || run_once "piece $number failed"
done
if [ -n "$all" ]; then
    (cd "$room" && cat $outputs >states) && "$awk" -f "$all" <"$room/states" >"$room/sums" 2>/dev/null ||
        run_once 'the second stage failed'
    outputs=sums
fi
(cd "$room" && cat $outputs)
