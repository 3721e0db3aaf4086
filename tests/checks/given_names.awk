{ print fmt $1, width }
$1 > limit { print prefix $0 }
