BEGIN {
    function f(a) { return a }
}
