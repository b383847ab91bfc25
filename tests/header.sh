#!/bin/sh
# The header's constants and the command's words, against the tables of the proved code and against the library.
set -eu
awk -f tests/tables.awk crates/symbols/src/unit_table.rt crates/symbols/src/prefix_table.rt >build/tests/tables
build/tests/header <build/tests/tables
# the header alone, as strict C11 and, where a C++ compiler is there, as C++11
printf '#include "thalinguze.h"\n' >build/tests/alone.c
gcc -std=c11 -pedantic -Wall -Wextra -Wconversion -Werror -Iinclude -fsyntax-only build/tests/alone.c
if command -v g++ >/dev/null; then
    g++ -std=c++11 -pedantic -Wall -Wextra -Werror -Iinclude -fsyntax-only -x c++ build/tests/alone.c
    echo 'the header compiles alone as C11 and as C++11'
else
    echo 'the header compiles alone as C11; not tried as C++, for want of g++'
fi

# prints SOURCE WANTED: an example of the header, as C11 and, where a C++ compiler is there, as C++11
prints() {
    for compiler in 'gcc -std=c11 -x c' 'g++ -std=c++11 -x c++'; do
        command -v "${compiler%% *}" >/dev/null || continue
        # shellcheck disable=SC2086 # the words are arguments
        $compiler -Wall -Wextra -Werror -Iinclude -o build/tests/example "$1" -x none build/libthalinguze.a
        said=$(printf 'kg/m.s\n' | build/tests/example)
        [ "$said" = "$2" ] || { echo "the header's example, by $compiler, prints $said, not $2"; exit 1; }
    done
}
# the example at the top of the header
sed -n '/^ \*     #include <stdio.h>/,/^ \*     }$/s/^ \*  \{0,5\}//p' include/thalinguze.h >build/tests/example.c
prints build/tests/example.c "$(printf 'unit %s, exponent %s sixtieths\n' 2 60 1 -60 3 60)"

# fragment FIRST WANTED: the example of a call, from the line that begins with FIRST up to the end of its code, as a whole program
fragment() {
    {
        printf '#include <stdio.h>\n#include <string.h>\n#include "thalinguze.h"\nint main(void)\n{\n'
        sed -n "/^ \*     $1/,/^ \*\$/s/^ \*  \{0,5\}//p" include/thalinguze.h
        printf 'return 0;\n}\n'
    } >build/tests/fragment.c
    prints build/tests/fragment.c "$2"
}
fragment 'const char \*label = "10' '10**3 pixel h**(-1)'
fragment 'const char \*label = "kg' 'kilo gram metre to the minus 1 second'
fragment 'const char \*from' '1/36, k = 1'
fragment 'uint8_t state\[' '3 terms'
echo "the header's examples of reading, also in parts, rewriting, words and converting print what the header says"
