$0 ~ "\bthe" { print }
