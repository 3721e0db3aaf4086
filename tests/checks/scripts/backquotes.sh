#!/bin/sh
# Between backticks a backslash before a dollar sign, a backtick and a backslash is taken away first, and where these stand
# in double quotes before a double quote too.
x=`awk '{ print \$1, "a\\\\n" }' f`
x="`awk '{ print \$1, \"b\", 1.5 }' f`"
x=`awk "{ print \$1 }" f` y=`awk "{ print \\\$1, 2.5 }" f`
x=`echo \`awk '{ print \\\$1 }' f\` "\`awk '{ print 3.5 }' f\`" | awk '{ print 4.5 }'`
x=$(echo `awk '{ print \$2 }' f` | awk '{ print $2, \$3 }')
eval awk \''{ print 5.5 }'\' f
echo awk "is no program" && printf %s awk "6.5"
for tool in gawk 'no program' awk "7.5"; do if ! which awk "8.5"; then awk '{ print 9.5 }' f; fi; done
