function skip() {
    next
}

/east/ { skip() }
{ print $1 }
END { skip() }
