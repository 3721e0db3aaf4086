$1 <> "a" { print }
