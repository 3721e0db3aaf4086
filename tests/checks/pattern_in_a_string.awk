$0 ~ "a(b" { print }
{ gsub("\\", "/"); split($0, a, "a)"); print a[1] }
