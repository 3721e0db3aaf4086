#!/bin/sh
# Counts the instructions that a turn of a loop or a record costs, in this awk and in those of the machine: those of a run with
# 20,000 turns less those of a run with none, by turn. Other work on the machine changes nothing. `n` has its value from
# outside (`-v`), so it is an input text. Needs valgrind and seq.
#
#   bench/instructions.sh [EXECUTABLE]    without an executable: the one that the launcher builds
set -eu
export LC_ALL=C

root=$(CDPATH='' cd "$(dirname "$0")/.." && pwd -P)
work=$(mktemp -d)
trap 'rm -rf "$work"' EXIT

if [ "$#" -lt 1 ]; then
    "$root/awk" '' </dev/null
    set -- "$root/out/awk"
fi
executable=$1

. "$root/bench/rounds.sh"

turns=20000
seq 1 "$turns" | sed 's/.*/word & line/' >"$work/many"
: >"$work/none"

# The instructions of one run; `@` in a program stands for the number of turns.
instructions() { # NAME PROGRAM TURNS INPUT
    case $1 in
    this) command=$executable ;;
    *) command=$1 ;;
    esac
    program=$(printf '%s' "$2" | sed "s/@/$3/")
    valgrind --tool=callgrind --callgrind-out-file=/dev/null "$command" -v "n=$3" "$program" <"$work/$4" 2>&1 >/dev/null |
        sed -n 's/.*Collected : //p'
}

row() { # PROGRAM
    printf '| `%s` |' "$(in_table "$1")"
    for name in $names; do
        many=$(instructions "$name" "$1" "$turns" many)
        none=$(instructions "$name" "$1" 0 none)
        printf ' %d |' "$(((many - none) / turns))"
    done
    echo
}

head_of_table 'a turn or a record'
row 'BEGIN { for (i = 1; i <= @; i++) s += i }'
row 'BEGIN { while (i < @) { s = s + i * 3 - i % 7; if (s < 0) break; i++ } }'
row 'BEGIN { for (i = 0; i < @; i++) x = (i > 5 && i < 100) || i == 7 ? i : -i }'
row 'BEGIN { for (i = 0; i < @; i++) t = i " " j ":" k }'
row 'BEGIN { for (i = 1; i <= n; i++) s += i }'
row '{ }'
row '/absent literal/'
row '{ print }'
row '{ print $2 }'
row '{ print $2, $1 }'
row '{ s += $2 }'
row '$2 > 100'
row 'NR % 2 == 0'
row '$1 == "word"'
row '$1 == "word" && $2 > 100'
row '/word/ && /line/'
row '!/absent/ { n++ }'
row '{ if ($2 > 100) print $1 }'
row '{ if ($1 == "word") n++; else m++ }'
row '{ for (i = 1; i <= NF; i++) print $i }'
row '{ for (i = 1; i <= NF; i++) s += $i }'
row '{ print $1, n++ }'
