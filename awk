#!/bin/sh
# Runs the program of this repository, and under the name awk-check its checker. Where what lies in out/ isn't made of the
# sources as they are, `.ci/prove` proves and builds it first.
#
# The program runs in the caller's folder, with the caller's words and standard input. What a build
# has to say goes to standard error, and the status is 2 where one fails.
set -eu

# Follows links from this name to a file, and prints that file's folder.
folder_of() {
    file=$1
    while [ -L "$file" ]; do
        target=$(readlink "$file")
        case $target in
        /*) file=$target ;;
        *) file=$(dirname "$file")/$target ;;
        esac
    done
    CDPATH='' cd "$(dirname "$file")" && pwd -P
}

root=$(folder_of "$0")
case ${0##*/} in
awk-check) built=awk_check_program program=$root/out/awk-check ;;
*) built=awk program=$root/out/awk ;;
esac

# (a signal ends the proofs with it)
"$root/.ci/prove" "$built" </dev/null &
proving=$!
trap 'kill "$proving" 2>/dev/null; wait "$proving"; exit 2' HUP INT TERM
wait "$proving" || exit 2
trap - HUP INT TERM
exec "$program" "$@"
