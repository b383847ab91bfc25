#!/bin/sh
# usage: guard.sh [COUNT [UNDER_VALGRIND]]
# Lends the library buffers whose bounds are watched, with the labels of vectors/ and COUNT random inputs through each call: built with gcc's
# sanitizers, and UNDER_VALGRIND inputs under valgrind where it is installed. The programs read the vectors under valgrind too.
set -eu
count=${1:-100000}
under_valgrind=${2:-1000}

# told WHERE COMMAND..: what the command says, with a failure too
told() {
    where=$1
    shift
    said=$("$@") || { echo "$where: $said"; exit 1; }
    echo "$where: $said"
}
watched() { valgrind --quiet --error-exitcode=9 "$@"; }

told 'with sanitizers' build/tests/guard "$count"
if ! command -v valgrind >/dev/null; then
    echo 'not run under valgrind: it is not installed'
    exit 0
fi
told 'under valgrind' watched build/tests/guard-plain "$under_valgrind"

# answers OUTPUT COMMAND..: the command under valgrind answers standard input with that file
answers() {
    output=$1
    shift
    watched "$@" >build/tests/guard.out || { echo "under valgrind: $1 fails"; exit 1; }
    cmp build/tests/guard.out "$output" || { echo "under valgrind: $1 says something else"; exit 1; }
}
answers vectors/lines.out build/label-lines <vectors/lines.in
cut -d' ' -f1,2 vectors/readings.tsv >build/tests/guard.in
answers vectors/readings.tsv build/thalinguze read --vectors <build/tests/guard.in
echo 'under valgrind: the lines and readings of vectors/, by the programs'
