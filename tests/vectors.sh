#!/bin/sh
# Reads every label of each file of vectors/ with the command and compares each reading with the file's line.
set -eu
mkdir -p build/tests
for file in vectors/readings.tsv vectors/symbols.tsv vectors/decimals.tsv vectors/starlink.tsv; do
    cut -d' ' -f1,2 "$file" | build/thalinguze read --vectors >build/tests/readings.tsv
    cmp -s build/tests/readings.tsv "$file" || { diff build/tests/readings.tsv "$file" | head -n 20; echo "readings differ from $file"; exit 1; }
    count=$(wc -l <"$file")
    [ "$count" -gt 0 ]
    echo "$count readings are those of $file"
done
