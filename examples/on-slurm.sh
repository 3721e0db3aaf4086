#!/bin/sh
# A program over a file on the machines of a Slurm cluster that share a disk, in two stages.
# Run it with: examples/on-slurm.sh AWK PROGRAM FILE OUTPUT PIECES [ALL]
#
# The first stage is an array of jobs, each of which reads its own piece of the file, cut behind newlines: for a program
# that treats each record for itself, as `awk-check --pieces` tells. The second begins when all of these ended well, and
# joins what they printed in OUTPUT, in the order of the pieces; or, where ALL is given, it is that program over what they
# printed: PROGRAM and ALL are then what `awk-check --each` and `awk-check --all` print of a program that sums up. It waits
# for both. Where a job fails, the status isn't 0 and there is no OUTPUT; what the jobs said is in OUTPUT.log. The files lie
# where all machines see them.
set -u

# In a job: the words are those that were given below.
case $1 in
--piece)
    awk=$2 program=$3 file=$4 output=$5 pieces=$6 number=$SLURM_ARRAY_TASK_ID
    rm -f "$output.read.$number"
    { split -n "l/$number/$pieces" "$file" && : >"$output.read.$number"; } | "$awk" -f "$program" >"$output.$number" || exit
    # (a pipe has the status of its last command)
    rm "$output.read.$number"
    exit
    ;;
--join)
    awk=$2 output=$3 pieces=$4 all=$5
    for number in $(seq "$pieces"); do set -- "$@" "$output.$number"; done
    shift 5
    cat "$@" >"$output.new" || exit
    if [ -n "$all" ]; then
        mv "$output.new" "$output.sums" && "$awk" -f "$all" <"$output.sums" >"$output.new" && rm "$output.sums" || exit
    fi
    mv "$output.new" "$output" && rm "$@"
    exit
    ;;
esac

awk=$(realpath "$1") program=$(realpath "$2") file=$(realpath "$3") output=$(realpath "$4") pieces=$5
all=${6:+$(realpath "$6")}
rm -f "$output"
job=$(sbatch --parsable --array="1-$pieces" --output="$output.log" --open-mode=append \
    "$0" --piece "$awk" "$program" "$file" "$output" "$pieces") || exit
sbatch --wait --dependency="afterok:$job" --kill-on-invalid-dep=yes --output="$output.log" --open-mode=append \
    "$0" --join "$awk" "$output" "$pieces" "$all" >/dev/null && [ -e "$output" ]
