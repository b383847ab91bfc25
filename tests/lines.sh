#!/bin/sh
# The line program over real pipes: the vectors and document 01's sample, chunks cut anywhere, lines of any length and bytes, and
# an output that is closed or full.
set -eu
program=build/label-lines
directory=build/tests/lines
tried=0
mkdir -p "$directory"

fail() {
    printf '%s\n' "$*"
    exit 1
}

# answers NAME: the program answers $directory/in with the bytes of $directory/wanted
answers() {
    "$program" <"$directory/in" >"$directory/out" 2>"$directory/err" || fail "$1: status $?"
    cmp "$directory/out" "$directory/wanted" || fail "$1: other bytes"
    [ ! -s "$directory/err" ] || fail "$1: words on standard error"
    tried=$((tried + 1))
}

# line NAME INPUT OUTPUT: both as printf takes them
line() {
    printf "$2" >"$directory/in"
    printf "$3" >"$directory/wanted"
    answers "$1"
}

# bytes COUNT: so many letters x
bytes() {
    head -c "$1" /dev/zero | tr '\0' x
}

sample='t1\tcds\tkg/m.s\tfits\nt2\tfits\tkg/m s\tcds\nt3\togip\tph\tvou\nt4\tcds\t10+3pix/h\togip\n'
sample_answer='t1\t0\tkg m-1 s\nt2\t4\t\nt3\t12\t\nt4\t0\t10**3 pixel h**(-1)\n'
line 'the sample of document 01' "$sample" "$sample_answer"
line 'an empty input' '' ''
line 'an empty line' '\n' '\t15\t\n'
line 'empty lines' '\n\n\n' '\t15\t\n\t15\t\n\t15\t\n'
line 'a last line without a newline' '1\tcds\tkm/h\tcds' '1\t0\tkm.h-1\n'
line 'a last line that is malformed' 'x' '\t15\t\n'
line 'two tabs' '1\tcds\tm\n' '\t15\t\n'
line 'four tabs' '1\tcds\tm\tcds\t\n' '\t15\t\n'
line 'three tabs alone' '\t\t\t\n' '\t1\t\n'
line 'names of other notations' '1\tFITS\tm\tcds\n2\tfits\tm\tcd\n3\tfits \tm\tcds\n4\t\tm\t\n' '1\t1\t\n2\t1\t\n3\t1\t\n4\t1\t\n'
line 'Starlink' '1\tstarlink\tJ/(m**2*Ang)\tfits\n2\togip\tangstrom\tstarlink\n3\tcds\t10+3m\tstarlink\n4\tstarlink\t/s\tfits\n' \
    '1\t0\tJ m-2 Angstrom-1\n2\t0\tAng\n3\t12\t\n4\t4\t\n'
line 'names that are nearly Starlink' '1\tStarlink\tm\tcds\n2\tstarlin\tm\tcds\n3\tcds\tm\tstarlinks\n4\tcds\tm\tstar\n' '1\t1\t\n2\t1\t\n3\t1\t\n4\t1\t\n'
line 'the text before the name of the target' 'x\tfits\tkg/m s\tfoo\n' 'x\t4\t\n'
line 'the name of the source before the text' 'x\tfoo\tkg/m s\tfits\n' 'x\t1\t\n'
line 'carriage returns' 'a\tcds\tm\tcds\r\n\r\nb\r\tcds\tm\tfits\n' 'a\t1\t\n\t15\t\nb\r\t0\tm\n'
line 'NUL and other bytes' 'a\0b\377\tcds\tm\tfits\nc\tcds\tm\0\tfits\n\0\n' 'a\0b\377\t0\tm\nc\t3\t\n\t15\t\n'

# Lines of 512 and 513 bytes, and far longer ones. A line after a long one is answered.
for size in 512 513 514 1000 65535 65536 65537 200000 10000000; do
    { bytes $((size - 11)) && printf '\tcds\tm\tfits\nnext\tcds\tm\tfits\n'; } >"$directory/in"
    { if [ "$size" = 512 ]; then bytes 501 && printf '\t0\tm\n'; else printf '\t15\t\n'; fi && printf 'next\t0\tm\n'; } >"$directory/wanted"
    answers "a line of $size bytes"
    # the same without a newline
    head -c "$size" "$directory/in" >"$directory/cut" && mv "$directory/cut" "$directory/in"
    head -n 1 "$directory/wanted" >"$directory/cut" && mv "$directory/cut" "$directory/wanted"
    answers "a last line of $size bytes"
done

# The vectors, whole and in chunks of many sizes.
for name in lines starlink; do
    cp "vectors/$name.in" "$directory/in"
    cp "vectors/$name.out" "$directory/wanted"
    answers "vectors/$name.in"
done
for size in 1 2 7 512 513 1000; do
    dd if=vectors/lines.in bs="$size" status=none | "$program" | cmp - vectors/lines.out || fail "chunks of $size bytes: other bytes"
    tried=$((tried + 1))
done
for cut in 1 5 22 23 24 600 1025 42853; do
    { head -c "$cut" vectors/lines.in; sleep 0.05; tail -c +$((cut + 1)) vectors/lines.in; } | "$program" | cmp - vectors/lines.out || fail "cut after $cut bytes: other bytes"
    tried=$((tried + 1))
done

# An answer comes as soon as its line is there.
{ printf 'now\tcds\tm\tfits\n' && sleep 1; } | "$program" | { read -r first && [ "$first" = "$(printf 'now\t0\tm')" ]; } || fail 'a line waits for the next'
tried=$((tried + 1))

# A closed or a full output ends the program, and so does an input that cannot be read.
repeated() {
    yes "$(printf '1\tcds\tm\tfits')" | head -n "$1"
}
[ "$(repeated 1000000 | "$program" 2>"$directory/err" | head -n 1)" = "$(printf '1\t0\tm')" ] || fail 'a closed output: another first line'
[ "$(cat "$directory/err")" = 'label-lines: input or output failed' ] || fail 'a closed output: no word'
repeated 1000000 | timeout 20 "$program" 2>"$directory/err" >/dev/full || true
[ "$(cat "$directory/err")" = 'label-lines: input or output failed' ] || fail 'a full output: no word'
timeout 20 "$program" </ 2>"$directory/err" >"$directory/out" || true
[ "$(cat "$directory/err")" = 'label-lines: input or output failed' ] || fail 'an input that cannot be read: no word'
[ ! -s "$directory/out" ] || fail 'an input that cannot be read: answers'
tried=$((tried + 3))

# A million lines, in 4 MB of memory.
repeated 1000000 | (ulimit -v 4000 && exec "$program") | { uniq -c | sed 's/^ *//'; } >"$directory/out"
[ "$(cat "$directory/out")" = "$(printf '1000000 1\t0\tm')" ] || fail 'a million lines: other answers'
tried=$((tried + 1))
echo "$tried inputs of the line program are answered as they should be"
