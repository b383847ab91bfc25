#!/bin/sh
# The library keeps no state, calls nothing but memcpy, memset and memcmp, and exports the calls of the header alone.
set -eu
library=build/libthalinguze.a shared=build/libthalinguze.so
writable=$(nm "$library" | awk '$2 ~ /^[BbDdCc]$/ { print $3 }')
[ -z "$writable" ] || { echo "the library has writable data: $writable"; exit 1; }
calls=$(nm "$library" | awk '
    NF == 3 { defined[$3] = 1 }
    $1 == "U" { used[$2] = 1 }
    END { for (name in used) if (!(name in defined) && name !~ /^mem(cpy|set|cmp)$/) print name }')
[ -z "$calls" ] || { echo "the library calls $calls"; exit 1; }
echo 'the library has no writable data and calls nothing but functions on memory'

exported=$(grep -v '^static' include/thalinguze.h | sed -n 's/^[a-z].* \(thalinguze_[a-z]*\)(.*/\1/p' | sort)
# five calls on whole labels, and three on labels in parts
[ "$(echo "$exported" | grep -cvE '_(begin|part|end)$')" = 5 ] && [ "$(echo "$exported" | wc -l)" = 8 ] || { echo "the header declares $exported"; exit 1; }
for file in "$library" "-D $shared"; do
    # shellcheck disable=SC2086 # -D is an option
    found=$(nm --defined-only --extern-only $file | awk 'NF == 3 { print $3 }' | sort)
    [ "$found" = "$exported" ] || { echo "$file exports $found, not $exported"; exit 1; }
done
read -r needed soname <<END
$(readelf -d "$shared" | awk '/\(NEEDED\)/ { needed = needed $NF } /\(SONAME\)/ { soname = $NF } END { print needed, soname }')
END
major=$(sed -n 's/^#define THALINGUZE_VERSION_MAJOR //p' include/thalinguze.h)
[ "$needed $soname" = "[libc.so.6] [libthalinguze.so.$major]" ] || { echo "the shared library needs $needed and is called $soname"; exit 1; }
if readelf -d "$shared" | grep -q TEXTREL; then
    echo 'the code of the shared library depends on its place in memory'
    exit 1
fi
echo 'the static and the shared library export the calls of the header and nothing else'
