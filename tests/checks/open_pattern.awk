/abc { print }
