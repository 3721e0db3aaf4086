# Read by the scripts that measure the awk itself: sets root (the repository), work (a folder that goes with the
# script) and executable, which the launcher builds first. With EXECUTABLE in the environment it is that one.
root=$(CDPATH='' cd "$(dirname "$0")/.." && pwd -P)
work=$(mktemp -d)
trap 'rm -rf "$work"' EXIT
executable=${EXECUTABLE:-$root/out/awk}
[ -n "${EXECUTABLE:-}" ] || "$root/awk" '' </dev/null
