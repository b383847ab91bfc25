#!/bin/sh
# What make run shows, and what make says where the toolchain is missing.
set -eu
unset MAKEFLAGS
out=build/tests/make
mkdir -p "$out"
fail() { echo "make: $1"; exit 1; }

# make run: each notation's answer, then the four sample lines with their answers
{
    build/thalinguze read all kg/m.s
    echo
    echo 'Lines, each with an id, a notation, a label and the notation to write it in:'
    head -n 4 vectors/lines.in
    echo
    echo 'What build/label-lines answers, each with the id, 0 or the number of a refusal, and the label as rewritten:'
    head -n 4 vectors/lines.out
} >"$out/wanted"
make --silent --no-print-directory run >"$out/said"
diff "$out/said" "$out/wanted" || fail 'run says something else'
[ "$(tail -n 1 "$out/said")" = "$(printf 't4\t0\t10**3 pixel h**(-1)')" ] || fail 'run ends with another line'
build/thalinguze read cds '10+3pix/h' >"$out/wanted"
make --silent --no-print-directory run NOTATION=cds LABEL='10+3pix/h' >"$out/said"
diff "$out/said" "$out/wanted" || fail 'run says something else of another label'

# a copy without build/, on a path that has no rt
copy=$(mktemp -d)
trap 'rm -rf "$copy"' EXIT
cp -r Makefile crates.txt include lib c man examples tests vectors "$copy"
mkdir "$copy/crates" "$copy/path"
for tool in sh find sed paste make mkdir gcc ar; do ln -s "$(command -v "$tool")" "$copy/path/$tool"; done
if PATH="$copy/path" make --no-print-directory -C "$copy" >"$out/said" 2>"$out/err"; then
    fail 'it builds the library without rt'
fi
cat "$out/err" >>"$out/said"
if [ "$(wc -l <"$out/said")" != 1 ] || ! grep -q 'rt is missing.*section "Needed" of README.md' "$out/said"; then
    cat "$out/said"
    fail 'it says something else where rt is missing'
fi
echo 'make run shows the answers and the sample lines, and make says where the toolchain comes from'
