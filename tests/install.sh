#!/bin/sh
# Installs into a temporary directory, and from there builds and runs the examples, runs the programs and the commands of the manual, and
# uninstalls again. Nothing but the installed files is used, and nothing is left.
set -eu
unset MAKEFLAGS PREFIX DESTDIR PKG_CONFIG_SYSROOT_DIR
repository=$(pwd)
root=$(mktemp -d)
trap 'rm -rf "$root"' EXIT
destination="$root/a tree" prefix=/opt/labels
tree=$destination$prefix
work=$root/work
mkdir -p "$work"

fail() {
    printf 'installed tree: %s\n' "$*"
    exit 1
}

make_it() {
    make --silent --no-print-directory "$1" DESTDIR="$destination" PREFIX="$prefix"
}

# number NAME: what the header defines THALINGUZE_VERSION_NAME as
number() {
    sed -n "s/^#define THALINGUZE_VERSION_$1 //p" include/thalinguze.h
}
version=$(number MAJOR).$(number MINOR).$(number PATCH)

[ "$(grep -m 1 '^## ' docs/CHANGES.md)" = "## $version" ] || fail "docs/CHANGES.md does not begin with $version"

# THE FILES

make_it install
cat >"$work/wanted" <<END
bin/label-lines 755
bin/thalinguze 755
include/thalinguze.h 644
lib/libthalinguze.a 644
lib/libthalinguze.so -> libthalinguze.so.$(number MAJOR)
lib/libthalinguze.so.$(number MAJOR) -> libthalinguze.so.$version
lib/libthalinguze.so.$version 755
lib/pkgconfig/thalinguze.pc 644
share/man/man1/label-lines.1 644
share/man/man1/thalinguze.1 644
share/man/man3/thalinguze.3 644
END
(cd "$tree" && find . -type f -printf '%P %m\n' -o -type l -printf '%P -> %l\n') | LC_ALL=C sort >"$work/found"
LC_ALL=C sort "$work/wanted" | diff "$work/found" - || fail 'other files'
make_it install # over itself
if grep -r '@[A-Z]*@' "$tree/lib/pkgconfig" "$tree/share"; then
    fail 'a name is left in place of its value'
fi
for page in "$tree"/share/man/man*/*; do
    grep -q "^\.TH .*\"Thalinguze $version\"" "$page" || fail "${page##*/} has another version"
done

# THE EXAMPLES

cat >"$work/wanted" <<'END'
unit 2, exponent 60 sixtieths
unit 1, exponent -60 sixtieths
unit 3, exponent 60 sixtieths
kg/m.s is refused, number 4
10+3pix/h is rewritten as 10**3 pixel h**(-1)
km/h to m/s: times 1/36 times ten to the 1
kg/m.s is spoken as kilo gram metre to the minus 1 second
END
# prints NAME COMMAND..: what is wanted
prints() {
    name=$1
    shift
    "$@" >"$work/said" || fail "$name: status $?"
    diff "$work/said" "$work/wanted" || fail "$name: other words"
}

cp examples/labels.c examples/labels.py "$work"
cd "$work"
sysroot=$root/sysroot # flags are separated by spaces, and the destination's name has one
ln -s "$destination" "$sysroot"
described=$sysroot$prefix/lib/pkgconfig/thalinguze.pc
if command -v pkg-config >/dev/null; then
    export PKG_CONFIG_PATH="${described%/*}"
    [ "$(pkg-config --modversion thalinguze)" = "$version" ] || fail 'pkg-config: another version'
    compile=$(PKG_CONFIG_SYSROOT_DIR=$sysroot pkg-config --cflags thalinguze)
    link=$(PKG_CONFIG_SYSROOT_DIR=$sysroot pkg-config --libs thalinguze)
    libraries=$sysroot$(pkg-config --variable=libdir thalinguze)
    asked=pkg-config
else
    # the lines of the file, with its variables filled in
    described() { sed -n "s|\${includedir}|$sysroot$prefix/include|; s|\${libdir}|$sysroot$prefix/lib|; s|^$1||p" "$described"; }
    grep -qx "Version: $version" "$described" || fail 'the file for pkg-config: another version'
    compile=$(described Cflags:) link=$(described Libs:) libraries=$sysroot$(described libdir=)
    asked='the file for pkg-config, which is not installed'
fi
options='-std=c11 -Wall -Wextra -Werror'
# shellcheck disable=SC2086 # the words are arguments
{
    gcc $options -o with-static labels.c $compile "$libraries/libthalinguze.a"
    gcc $options -o with-shared labels.c $compile $link
}
prints 'the C example with the static library' ./with-static
if ./with-shared >/dev/null 2>&1; then
    fail 'the C example does not need the shared library'
fi
prints 'the C example with the shared library' env LD_LIBRARY_PATH="$tree/lib" ./with-shared
prints 'the Python example with a path' python3 labels.py "$tree/lib/libthalinguze.so"
prints 'the Python example without a path' env LD_LIBRARY_PATH="$tree/lib" python3 labels.py
cat >version.c <<'END'
#include <stdio.h>
#include <thalinguze.h>
int main(void)
{
    printf("%s %d %u\n", THALINGUZE_VERSION_STRING, THALINGUZE_VERSION_NUMBER, (unsigned)thalinguze_version());
    return 0;
}
END
# shellcheck disable=SC2086
gcc $options -o version version.c $compile $link
numbers=$(($(cd "$repository" && number MAJOR) * 10000 + $(cd "$repository" && number MINOR) * 100 + $(cd "$repository" && number PATCH)))
[ "$(LD_LIBRARY_PATH="$tree/lib" ./version)" = "$version $numbers $numbers" ] || fail 'the version of header and library'
echo "the examples in C, static and shared, and in Python run from an installed tree, by the flags of $asked"

# THE PROGRAMS AND THE MANUAL

head -n 4 "$repository/vectors/lines.in" | "$tree/bin/label-lines" >said
head -n 4 "$repository/vectors/lines.out" | diff said - || fail 'label-lines: other answers'
status=0
"$tree/bin/thalinguze" read fits kg/m.s >said || status=$?
[ "$status" = 1 ] || fail "thalinguze: status $status"
grep -q '^Refused, number 4' said || fail 'thalinguze: another answer'

# plain PAGE: its source without what roff needs
plain() {
    sed "s/\\\\-/-/g; s/\\\\(aq/'/g; s/\\\\&//g; s/\\\\e/\\\\/g" "$1"
}

# commands PAGE: a line of an example that starts with a dollar sign is a command; the lines below it are what it prints
commands=0
commands() {
    plain "$1" | awk '
        /^\.EX/ { inside = 1; next }
        /^\.EE/ { inside = printing = 0; next }
        !inside { next }
        /^\$ / || continued { if (!continued) files++; sub(/^\$ /, ""); print >("command." files); printing = 1; continued = /\\$/; next }
        printing { print >("wanted." files) }
        END { print files + 0 }' >count
    for i in $(seq "$(cat count)"); do
        PATH="$tree/bin:$PATH" sh "command.$i" >said || fail "${1##*/}: the status of $(cat "command.$i")"
        diff said "wanted.$i" || fail "${1##*/}: another answer to $(cat "command.$i")"
        commands=$((commands + 1))
    done
    rm -f command.* wanted.*
}
commands "$tree/share/man/man1/thalinguze.1"
commands "$tree/share/man/man1/label-lines.1"
[ "$commands" -gt 2 ] || fail "$commands commands in the manual"

# the page of the header has its calls, the example and what it prints
plain "$tree/share/man/man3/thalinguze.3" >page
sed -n 's/^static inline .*\(thalinguze_[a-z_]*\)(.*/\1/p; s/^[a-z].* \(thalinguze_[a-z_]*\)(.*/\1/p' "$tree/include/thalinguze.h" | sort -u >calls
[ "$(wc -l <calls)" -gt 20 ] || fail 'too few calls in the header'
while read -r call; do grep -q "$call(" page || fail "thalinguze.3 lacks $call"; done <calls
sed -n '/^ *THALINGUZE_ACCEPTED/,/^}/s/^ *\(THALINGUZE_[A-Z_]*\) = \([0-9]*\).*/\1 \2/p' "$tree/include/thalinguze.h" | tail -n +2 >refusals
[ "$(grep -vc '^THALINGUZE_AFTER_THE_END ' refusals)" = 14 ] || fail 'not 14 refusals of whole labels in the header'
[ "$(wc -l <refusals)" = 15 ] || fail 'not 15 refusals in the header'
while read -r name refusal; do grep -qx ".BR $name \" ($refusal)\"" page || fail "thalinguze.3 lacks $name"; done <refusals
awk '/^\/\* Reads a label/ { inside = 1 } /^\.EE/ { inside = 0 } inside' page | diff - labels.c || fail 'thalinguze.3 has another example'
awk '/^prints$/ { printed = 1 } printed && inside && !/^\.EE/ { print } printed && /^\.EX/ { inside = 1 } /^\.EE/ { inside = 0 }' page |
    diff - wanted || fail 'thalinguze.3 prints something else'

linted=
for page in "$tree"/share/man/man*/*; do
    if command -v groff >/dev/null; then
        groff -man -ww -z -Tutf8 "$page" 2>said || fail "groff: ${page##*/}"
        [ ! -s said ] || { cat said; fail "groff warns of ${page##*/}"; }
        linted=' and groff has no warning'
    fi
    if command -v mandoc >/dev/null; then
        mandoc -T lint -W warning "$page" || fail "mandoc warns of ${page##*/}"
    fi
done
echo "$commands commands of the manual print what it says$linted"

# UNINSTALLING

touch "$tree/lib/other"
cd "$repository"
make_it uninstall
[ "$(cd "$tree" && find . ! -type d)" = ./lib/other ] || fail 'make uninstall leaves or takes other files'
make -n install DESTDIR=/elsewhere | grep -qF "'/elsewhere/usr/local/lib'" || fail 'the default prefix is not /usr/local'
echo 'make uninstall removes what make install installed, and nothing else'
