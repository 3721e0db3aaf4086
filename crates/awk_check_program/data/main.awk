# prints the heads of some lines
$1 > least { print head($2), lenght }
