#!/bin/sh
# Answers of the library against those of the second implementation in independent.py, which knows nothing of it: the cases that second.sh
# leaves in build/tests/second.
set -eu
out=build/tests/second

# compare KIND COMMAND...: what the command prints for the cases of that kind
compare() {
    kind=$1
    shift
    "$@" <"$out/$kind.cases" >"$out/$kind.command"
    if ! cmp "$out/$kind.command" "$out/$kind.second"; then
        diff -a "$out/$kind.command" "$out/$kind.second" | head -n 10
        exit 1
    fi
    echo "$kind: $(wc -l <"$out/$kind.second") answers of the library are those of the second implementation"
}

compare read build/thalinguze read --vectors
compare rewrite build/tests/rewrite
compare words build/tests/words
compare convert build/tests/convert
compare convert build/thalinguze convert --vectors
for kind in lines lines-ended lines-none; do compare "$kind" build/label-lines; done
cut -d' ' -f1-4 vectors/converts.tsv | build/tests/convert | cmp - vectors/converts.tsv || { echo 'the library differs from vectors/converts.tsv'; exit 1; }
echo "$(wc -l <vectors/converts.tsv) conversions are those of vectors/converts.tsv"
