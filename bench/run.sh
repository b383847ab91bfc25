#!/bin/sh
# Builds and runs the benchmark. BEFORE=/path/libthalinguze.a also measures that library. WRITE=1 puts the tables into docs/PERFORMANCE.md.
# wcslib and udunits2 are measured where they are installed (Debian: wcslib-dev, libudunits2-dev).
set -eu
out=build/bench
mkdir -p "$out"
options='-std=c11 -O2 -mtune=native -Wall -Wextra -Werror -pthread' libraries=build/libthalinguze.a after=

has() { printf '#include <%s>\n' "$1" | gcc -E - >/dev/null 2>&1; }
if has wcslib/wcsunits.h; then
    options="$options -DHAVE_WCSLIB" after="$after -lwcs -lm"
fi
if has udunits2.h; then
    options="$options -DHAVE_UDUNITS" after="$after -ludunits2"
fi
if [ -n "${BEFORE:-}" ]; then
    objcopy --redefine-sym thalinguze_read=before_read --redefine-sym thalinguze_rewrite=before_rewrite \
        --redefine-sym thalinguze_convert=before_convert --redefine-sym thalinguze_words=before_words \
        --redefine-sym thalinguze_begin=before_begin --redefine-sym thalinguze_part=before_part \
        --redefine-sym thalinguze_end=before_end "$BEFORE" "$out/libbefore.a"
    options="$options -DHAVE_BEFORE" libraries="$libraries $out/libbefore.a"
fi
# shellcheck disable=SC2086 # the words are arguments
gcc $options -o "$out/bench" bench/bench.c bench/reader.c bench/symbols.c bench/others.c $libraries $after
"$out/bench" >"$out/tables.md" || { cat "$out/tables.md"; exit 1; }

# instructions READER I: of the lookup, in one reading of spelling I
instructions() {
    valgrind --tool=callgrind --callgrind-out-file=/dev/null --toggle-collect=symbols::lookup::symbol "$out/bench" "$1" "$2" 2>&1 |
        sed -n 's/.*Collected : \([0-9]*\).*/\1/p'
}

# lookups [READER]: the instructions of a lookup by the library, and by the reader beside it
lookups() {
    echo "| instructions of a lookup in FITS | library |${1:+ $1 | library / $1 |}"
    echo "|---|---|${1:+---|---|}"
    i=0
    for name in '`m`' '`solMass`' 'an unknown one of 20 letters' 'an unknown one of 255 letters'; do
        count=$(instructions library $i)
        printf '| %s | %s |' "$name" "$count"
        [ -z "${1:-}" ] || instructions "$1" $i | awk -v count="$count" '{ printf " %d | %.2f |", $1, count / $1 }'
        echo
        i=$((i + 1))
    done
    echo
}
if command -v valgrind >/dev/null; then
    lookups ${BEFORE:+before} >>"$out/tables.md"
else
    printf 'The instructions of a lookup are not counted: valgrind is not installed.\n\n' >>"$out/tables.md"
fi
cat "$out/tables.md"
if [ -n "${WRITE:-}" ]; then
    awk -v tables="$out/tables.md" '
        /^<!-- tables: end/ { inside = 0 }
        !inside { print }
        /^<!-- tables: start/ { inside = 1; print ""; while ((getline line <tables) > 0) print line }
    ' docs/PERFORMANCE.md >"$out/PERFORMANCE.md"
    cp "$out/PERFORMANCE.md" docs/PERFORMANCE.md
fi
