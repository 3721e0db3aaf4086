# A configuration with an option set: in its section, where it stands or behind the section's last line; all else stays.
# Run it with: ./awk -v section=net -v name=port -v value=8080 -f examples/set-option.awk examples/service.conf
function add() { if (inside && !done) { print name " = " value; done = 1 } }
/^\[/ { add(); inside = $0 == "[" section "]" }
inside && $0 ~ "^" name "[ \t]*=" { if (!done) { print name " = " value; done = 1 }; next }
{ print }
END {
    if (!done && !inside) { print "[" section "]"; inside = 1 }
    add()
}
