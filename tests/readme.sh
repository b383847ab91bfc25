#!/bin/sh
# What README.md prints, against what its commands print: in a console block a line that starts with a dollar sign is a command, and the lines below it
# are what it prints. The lines of C are compiled and run, and the labels of its table read.
set -eu
out=build/tests/readme
rm -rf "$out"
mkdir -p "$out"
fail() { echo "README.md: $1"; exit 1; }

awk -v out="$out" '
    /^```/ { inside = /^```console$/; next }
    !inside { next }
    /^\$ / { files++; print substr($0, 3) >(out "/command." files); printf "" >(out "/wanted." files); next }
    { print >(out "/wanted." files) }
    END { print files + 0 }' README.md >"$out/count"
[ "$(cat "$out/count")" -gt 10 ] || fail 'it has few commands'
for i in $(seq "$(cat "$out/count")"); do
    status=0
    sh "$out/command.$i" >"$out/said" 2>&1 || status=$?
    refused=0
    if head -n 1 "$out/wanted.$i" | grep -q '^Refused'; then refused=1; fi
    [ "$status" = "$refused" ] || fail "status $status of $(cat "$out/command.$i")"
    diff "$out/said" "$out/wanted.$i" || fail "another answer to $(cat "$out/command.$i")"
done

# the lines of C
{
    printf '#include <stdio.h>\n#include <string.h>\n#include <thalinguze.h>\nint main(void)\n{\nconst char *label = "kg/m.s";\n'
    awk '/^```/ { inside = /^```c$/; next } inside' README.md
    printf 'return 0;\n}\n'
} >"$out/lines.c"
gcc -std=c11 -Wall -Wextra -Werror -Iinclude -o "$out/lines" "$out/lines.c" build/libthalinguze.a
[ "$("$out/lines" | tail -n 1)" = 'unit 3, exponent 60 sixtieths, above the line' ] || fail 'its lines of C print something else'

# the labels with the seconds above and below the line
rows=0
while IFS='|' read -r _ notation above below _; do
    name=$(echo "$notation" | tr -d ' ' | sed 's/VOUnits/vou/' | tr 'A-Z' 'a-z')
    label() { echo "$1" | sed 's/^ *`//; s/` *$//'; }
    build/thalinguze read "$name" "$(label "$above")" | grep -qx 'Above the line: kilo gram, second.' || fail "above in $notation"
    build/thalinguze read "$name" "$(label "$below")" | grep -qx 'Below the line: metre, second.' || fail "below in $notation"
    rows=$((rows + 1))
done <<END
$(sed -n '/^| Notation | Seconds above/,/^$/p' README.md | sed '1,2d;/^$/d')
END
[ "$rows" = 5 ] || fail "it has $rows rows of labels"
echo "README.md prints what its $(cat "$out/count") commands print"
