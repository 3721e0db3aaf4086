# Read by the scripts that compare random programs, with their own words: COUNT and SEED, and FOLDER, which keeps what
# they make. Sets count, seed, root (the repository), work (that folder, or one that goes with the script) and executable,
# which is built first. With EXECUTABLE in the environment it is that one: another awk there shows in what the others
# differ among themselves.
count=${1:-2000} seed=${2:-7}
root=$(CDPATH='' cd "$(dirname "$0")/../.." && pwd -P)
if [ $# -gt 2 ]; then
    mkdir -p "$3"
    work=$(CDPATH='' cd "$3" && pwd -P)
else
    work=$(mktemp -d)
    trap 'rm -rf "$work"' EXIT
fi

executable=${EXECUTABLE:-$root/out/awk}
[ -n "${EXECUTABLE:-}" ] || "$root/awk" '' </dev/null
