BEGIN {
    for (n = 1; n > 0; n *= 1000)
        digits++
}
