# The rate of each line.
function rate(part, whole) {
    return part * 100 / whole
}

function shown(name) {
    printf "%s %d%%\n", name, rate($2, $3)
}

$2 ~ /^[0-9]+$/ {
    shown($1)
}
