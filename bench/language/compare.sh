#!/bin/sh
# Whether random programs print, write and end as in other awks: for each group of the language's forms and each of the
# others, how many programs ended otherwise, and the first few of these.
#
#   bench/language/compare.sh [COUNT [SEED [FOLDER [GROUP..]]]]
#
# The groups are control, records, arrays, functions, texts, formats, mixed, operands, streams, commands and extensions, and
# without one all of them are taken. The programs, their inputs and what came of them are left in FOLDER/GROUP, if a folder
# is given. Gawk is held to the standard, but for extensions.
set -eu

. "$(dirname "$0")/../random.sh"
if [ $# -gt 3 ]; then
    shift 3
else
    set -- control records arrays functions texts formats mixed operands streams commands extensions
fi
# An element of ENVIRON that programs read, and the order of bytes in sort.
export WORD=7 LC_ALL=C

# What a program prints, its status, and the files that it leaves in a folder of its own.
of() {
    name=$1 n=$2
    shift 2
    set -- "$@" -f "../$n.awk"
    while IFS= read -r word; do
        set -- "$@" "$word"
    done <"$n.words"
    rm -rf run
    cp -R files run
    (
        cd run
        timeout 5 "$@" <"../$n.in" 2>/dev/null && echo 'status 0' || echo "status $?"
        tail -n +1 -- *
    ) >"$n.$name"
}

# The programs of which two outputs differ.
others() {
    n=0
    while [ "$n" -lt "$count" ]; do
        cmp -s "$n.$1" "$n.$2" || printf ' %s' "$n"
        n=$((n + 1))
    done
}

for group; do
    mkdir -p "$work/$group"
    "$root/bench/language/programs.py" "$work/$group" "$group" "$count" "$seed"
    cd "$work/$group"
    posix=--posix
    [ "$group" != extensions ] || posix=
    n=0
    while [ "$n" -lt "$count" ]; do
        of this "$n" "$executable"
        of gawk "$n" gawk $posix
        of mawk "$n" mawk
        n=$((n + 1))
    done
    for name in gawk mawk; do
        others=$(others this "$name")
        echo "$group, $name: $(echo "$others" | wc -w) of $count${others:+, such as$(echo "$others" | cut -c1-60)}"
    done
done
