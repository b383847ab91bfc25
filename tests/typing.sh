#!/bin/sh
# usage: typing.sh [COUNT [STEP]]
# Labels that come in parts, with the labels of vectors/ and COUNT labels and states made at random, built with gcc's sanitizers; under valgrind, where it
# is installed, with the first of STEP labels of vectors/ and a hundredth of COUNT; and the program examples/typed.c, fed by a real pipe.
set -eu
count=${1:-10000}
step=${2:-50}

# told WHERE COMMAND..: what the command says, with a failure too
told() {
    where=$1
    shift
    said=$("$@") || { echo "$where: $said"; exit 1; }
    echo "$where: $said"
}
told 'with sanitizers' build/tests/typing "$count"
if command -v valgrind >/dev/null; then
    told 'under valgrind' valgrind --quiet --error-exitcode=9 build/tests/typing-plain $((count / 100)) "$step"
else
    echo 'not run under valgrind: it is not installed'
fi

gcc -std=c11 -Wall -Wextra -Werror -Iinclude -o build/tests/typed examples/typed.c build/libthalinguze.a
# typed INPUT NOTATION: what the program answers to bytes that come one by one, each by a write of its own
typed() {
    python3 -c '
import os, sys
for byte in os.fsencode(sys.argv[1]):
    os.write(1, bytes([byte]))' "$1" | build/tests/typed "$2"
}
same() { [ "$1" = "$2" ] || { echo "examples/typed.c says $1, not $2"; exit 1; }; }
long=$(printf '%0255d' 0 | tr 0 m)
same "$(typed "kg/m.s
kg//m

$long
${long}m
m m" 3)" 'accepted, terms: 3
refused, number 4
accepted, terms: 0
accepted, terms: 1
refused, number 2
refused, number 4'
same "$(typed 'm
' 6)" 'refused, number 1'
same "$(typed "${long}m
" 6)" 'refused, number 1'
echo 'the program examples/typed.c reads labels byte by byte from a pipe'
