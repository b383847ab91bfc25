#!/bin/sh
# usage: second.sh [COUNT [SEED [LEAST]]]
# The second implementation of independent.py against the stored vectors. Then it answers cases at the edges and COUNT others of each kind, made
# from SEED, with every pair of units among them; each refusal number must be met at least LEAST times, and by every kind that can answer it.
# The cases and answers stay in build/tests/second for independent.sh.
set -eu
count=${1:-5000}
seed=${2:-1}
least=${3:-1}
out=build/tests/second
mkdir -p "$out"
if ! command -v python3 >/dev/null; then
    echo 'the second implementation needs python3, which is not installed'
    exit 1
fi
second() { python3 tests/independent.py "$@"; }

# stored FILE: standard input against a file of vectors
stored() {
    diff -a - "$1" >"$out/differences" || { head -n 10 "$out/differences"; echo "the second implementation differs from $1"; exit 1; }
}
second symbols | stored vectors/symbols.tsv
second spoken | stored vectors/words.tsv
second decimals | stored vectors/decimals.tsv
second starlink | stored vectors/starlink.tsv
cut -d' ' -f1,2 vectors/readings.tsv | second read | stored vectors/readings.tsv
cut -d' ' -f1-4 vectors/converts.tsv | second convert | stored vectors/converts.tsv
second starlink-lines | stored vectors/starlink.in
for name in lines starlink; do second lines <"vectors/$name.in" | stored "vectors/$name.out"; done
echo 'the second implementation says what the stored readings, conversions, words and lines say'

for kind in read rewrite convert words lines; do
    second cases "$kind" "$seed" "$count" all >"$out/$kind.cases"
    second "$kind" <"$out/$kind.cases" >"$out/$kind.second"
done

# with a newline after the last line, and without any line
{ cat "$out/lines.cases"; echo; } >"$out/lines-ended.cases"
: >"$out/lines-none.cases"
for kind in lines-ended lines-none; do
    second lines <"$out/$kind.cases" >"$out/$kind.second"
done
cmp "$out/lines-ended.second" "$out/lines.second"
[ ! -s "$out/lines-none.second" ] || { echo 'there are answers to no lines'; exit 1; }

second met "$least" "$out/read.second" "$out/rewrite.second" "$out/convert.second" "$out/words.second" "$out/lines.second"
