# What the scripts of this folder share: which awks are timed, and in which rounds. A script that reads
# this has a folder $work and a count $rounds, and defines `measure NAME ..`, which runs one of the awks
# and adds a line to $work/NAME.times: its seconds, and behind a blank its peak memory.

# This one, and those of the machine.
names=this
for name in mawk gawk; do
    ! command -v "$name" >/dev/null || names="$names $name"
done

# They take turns, so that what else goes on falls on each of them.
take_rounds() {
    rm -f "$work"/*.times
    round=0
    while [ "$round" -lt "$rounds" ]; do
        round=$((round + 1))
        for name in $names; do
            measure "$name" "$@"
        done
    done
}

least_seconds() {
    sort -n "$work/$1.times" | sed -n -e 's/ .*//' -e 1p
}

most_seconds() {
    sort -n "$work/$1.times" | sed -n -e 's/ .*//' -e '$p'
}

peak_memory() {
    sed 's/.* //' "$work/$1.times" | sort -n | tail -n 1
}

# The head of a table: the columns named, and one for each awk.
head_of_table() {
    for column in "$@" $names; do
        printf '| %s ' "$column"
    done
    echo '|'
    for column in "$@" $names; do
        printf '|---'
    done
    echo '|'
}

# The rest of a row: the least seconds of each.
least_of_each() {
    for name in $names; do
        printf ' %s |' "$(least_seconds "$name")"
    done
    echo
}

# A program or a pattern, as it is written in a table.
in_table() {
    printf '%s' "$1" | sed 's/|/\\|/g'
}
