#!/bin/sh
# A program over a file on all processors of the machine, by GNU parallel.
# Run it with: examples/on-processors.sh ./awk examples/errors.awk examples/access.log
#
# Parallel cuts the file behind newlines into a piece for each processor, and joins the outputs in the order of the
# pieces. Where the program treats each record for itself, as `awk-check --pieces` tells, this prints what one run prints.
# The program is in a file: in the words of a command parallel replaces `{}`, `{#}` and their like, in spite of --quote.
awk=$1 program=$2 file=$3
exec parallel --quote --pipepart --keep-order --block -1 --halt now,fail=1 --arg-file "$file" "$awk" -f "$program"
