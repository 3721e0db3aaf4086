function max(a, b) { return a > b ? a : b }
{ print }
