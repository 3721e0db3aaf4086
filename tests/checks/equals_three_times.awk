$1 === "a" { print }
