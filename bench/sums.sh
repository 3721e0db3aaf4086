#!/bin/sh
# Times programs that sum up over a log of 2,000 MB: one run, and two stages, the first of them four at a time on pieces of
# the log, by the recipe of examples/added-pieces.sh; by this awk and by those of the machine, which run the two programs
# that awk-check prints. It prints a row for each program and awk: the seconds of all processors (user and system, those
# of parallel too) and those that went by, the least of the rounds, for one run and for two stages, and the bytes between
# the stages. Where this awk's outputs differ in a byte, or another's lines are others, it says so, and ends with status 1.
# The log is made here. Needs GNU time, GNU parallel, seq and sed; CHECKER names the checker where EXECUTABLE names the awk.
#
#   bench/sums.sh [ROUNDS [MEGABYTES [JOBS]]]
set -eu
export LC_ALL=C

rounds=${1:-3} megabytes=${2:-2000} jobs=${3:-4}
. "$(dirname "$0")/executable.sh"
. "$root/bench/rounds.sh"
. "$root/bench/log.sh"
checker=${CHECKER:-$root/out/awk-check}

cat >"$work/hosts.awk" <<'AWK'
{ n[$1]++ } END { for (host in n) print host, n[host] }
AWK
cat >"$work/sums.awk" <<'AWK'
{ n[$1]++; bytes[$1] += $5 } END { for (host in n) print host, n[host], bytes[host] }
AWK
cat >"$work/pairs.awk" <<'AWK'
{ n[$1 " " $4]++ } END { for (pair in n) print pair, n[pair] }
AWK

# The awk of a name.
awk_of() {
    case $1 in
    this) echo "$executable" ;;
    *) echo "$1" ;;
    esac
}

# Runs the program in both ways, and notes the seconds.
measure() {
    awk=$(awk_of "$1") name=$1 program=$2
    command time -q -f '%e %U %S' -o "$work/$name.$program.one" -a \
        "$awk" -f "$work/$program.awk" "$work/log" </dev/null >"$work/$name.$program.once"
    command time -q -f '%e %U %S' -o "$work/$name.$program.two" -a \
        sh -c 'parallel --quote --pipepart --keep-order --jobs "$1" --block -1 --halt now,fail=1 --arg-file "$2/log" \
            "$3" -f "$2/$4.each.awk" >"$2/$5.$4.state" && "$3" -f "$2/$4.all.awk" <"$2/$5.$4.state"' \
        sh "$jobs" "$work" "$awk" "$program" "$name" </dev/null >"$work/$name.$program.twice"
}

# The least seconds of processors and by the clock, of a file of times.
least() {
    "$executable" -F '[. ]' '
        { n = ($3 + $5) * 100 + $4 + $6; e = $1 * 100 + $2 }
        NR == 1 || n < least { least = n }
        NR == 1 || e < elapsed { elapsed = e }
        END { printf "%d.%02d | %d.%02d", least / 100, least % 100, elapsed / 100, elapsed % 100 }' "$1"
}

# Whether an awk's two outputs are those of this awk: byte for byte its own, the lines of the others.
compare() {
    cmp "$work/this.$2.once" "$work/this.$2.twice" >&2 || return 1
    for way in once twice; do
        sort "$work/this.$2.once" >"$work/wanted"
        sort "$work/$1.$2.$way" | cmp - "$work/wanted" >&2 || return 1
    done
}

status=0
echo "| $megabytes MB | awk | one run, user and system | elapsed | two stages, user and system | elapsed | bytes between |"
echo '|---|---|---|---|---|---|---|'
for program in hosts sums pairs; do
    "$checker" --each -f "$work/$program.awk" >"$work/$program.each.awk"
    "$checker" --all -f "$work/$program.awk" >"$work/$program.all.awk"
    take_rounds "$program"
    for name in $names; do
        compare "$name" "$program" || {
            echo "$name $program: other lines" >&2
            status=1
        }
        printf '| `%s` | %s | %s | %s | %s |\n' "$(cat "$work/$program.awk")" "$name" "$(least "$work/$name.$program.one")" \
            "$(least "$work/$name.$program.two")" "$(wc -c <"$work/$name.$program.state")"
    done
done
exit "$status"
