#!/bin/sh
# The same over several machines: each has the awk and the program at these paths, and gets its pieces by ssh.
# Run it with: examples/on-machines.sh ./awk examples/errors.awk examples/access.log :
#
# The fourth word names the machines as `parallel --sshlogin` takes them: `ada,bob`, or `:` for this one, or `8/ada,:`
# for eight pieces at a time on one of them. A path is made absolute, since ssh begins in a home. This machine reads the
# file and sends all of it; where the machines share a disk, examples/on-slurm.sh has each read its own piece.
awk=$(realpath "$1") program=$(realpath "$2") file=$3 machines=$4
exec parallel --quote --pipepart --keep-order --block -1 --halt now,fail=1 --sshlogin "$machines" --arg-file "$file" \
    "$awk" -f "$program"
