# heads and tails
function head(s) { return substr(s, 1, 1) }

function tail(s) { return substr(s, 2) }
