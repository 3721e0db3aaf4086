#!/bin/sh
# Don't take this for a quotation: awk '{ print 3.14 }'
name=$1 don='it isn'"'"'t'
awk '{ print $1 * 1.5 }' "$name"
total=$(awk -F: -v least="$2" '
    $3 > least { n++ }
    END { print n, totl }' /etc/passwd)
echo "$(awk '{ x == 1 }' f) and \"$(mawk "{ print \$1, \"a\" 2.5 }" f)\""
cat <<END | awk -- '{ print > $1 ".out" }'
Don't read this: awk '{ print 3.14 }'
END
awk '{ print "'"$name"'" }' f | gawk -v a=1 '{ print a, b, c }' b=2 f
$AWK '{ print '\''x'\'' }' f && "$AWK" -f prog.awk '{ print 3.14 }'
for tool in awk sed; do command -v "$tool" >/dev/null; done
awk NR==1 f; awk "$program" f; awk >out '{ $1 =+ 2; print }' 2>&1
case $1 in (a) echo ;; esac
n=$((1 << 3)); `awk '{ $(-1) = 2 }' f`; xargs awk '!k in a { a[k] = k = 1 }' <f
