# Exact numbers up to 2^127 - 1: factorials while they fit, and the sum of the digits of each.
# Run it with: ./awk -v most=33 -f examples/factorials.awk
function digits(n,    sum) {
    for (; n > 0; n /= 10) sum += n % 10
    return sum
}
BEGIN {
    n = 1
    for (i = 1; i <= most; i++) {
        n *= i
        if (i % 8 == 1) print i "! = " n ", digits " digits(n)
    }
}
