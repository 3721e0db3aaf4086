BEGIN { RS = "--" }
{ print }
