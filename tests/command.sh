#!/bin/sh
# What the command says for labels that tell much, its exit statuses, its wrong calls, its vectors, and what it does where it cannot write.
set -eu
command=${1:-build/thalinguze}
directory=build/tests/command
tried=0
mkdir -p "$directory"

fail() {
    printf '%s\n' "$*"
    exit 1
}

# run ARGUMENT..: leaves what was printed in out and err, and the status in $status
run() {
    status=0
    "$command" "$@" >"$directory/out" 2>"$directory/err" || status=$?
    tried=$((tried + 1))
}

# says STATUS STREAM ARGUMENT..: standard input is the whole of what is printed on that stream, out or err; the other is empty
says() {
    wanted=$1 stream=$2
    shift 2
    cat >"$directory/wanted"
    run "$@"
    [ "$status" = "$wanted" ] || fail "$*: status $status, not $wanted"
    diff "$directory/$stream" "$directory/wanted" || fail "$*: other words"
    [ "$stream" = err ] || [ ! -s "$directory/err" ] || fail "$*: words on standard error"
    [ "$stream" = out ] || [ ! -s "$directory/out" ] || fail "$*: words on standard output"
}

# has STATUS NOTATION LABEL LINE..: reading prints each line
has() {
    wanted=$1 notation=$2 label=$3
    shift 3
    run read "$notation" "$label"
    [ "$status" = "$wanted" ] || fail "$notation $label: status $status, not $wanted"
    for line; do
        grep -qxF -e "$line" "$directory/out" || { cat "$directory/out"; fail "$notation $label: no line: $line"; }
    done
}

# ACCEPTED LABELS

says 0 out read cds 'kg/m.s' <<'END'
Accepted: kilo gram metre to the minus 1 second.
Above the line: kilo gram, second.
Below the line: metre.
Size: 1000 times gram second per metre.
END
says 0 out read CDS km/h <<'END'
Accepted: kilo metre hour to the minus 1.
Above the line: kilo metre.
Below the line: hour.
Size: 5/18 of a metre per second.
END
says 0 out read vou m <<'END'
Accepted: metre.
END
says 0 out read --long VOUnits m <<'END'
Accepted: metre.
Above the line: metre.
Below the line: nothing.
Power of ten: 0.
Known: yes.
Lawful: yes.
Recommended: yes.
Size: 1 metre.
END
says 0 out read fits '' <<'END'
Accepted: a plain number, without a unit.
END
says 0 out read fits Row.Number <<'END'
Accepted, but 2 units are unknown: Row, Number.
It reads: unit R o w end unit N u m b e r end.
END
has 0 cds yr 'Size: 31557600 seconds.'
has 0 fits Gyr 'Size: 315576 times ten to the 11 seconds.'
has 0 fits Jy 'Size: ten to the minus 23 of a gram per second to the 2.'
has 0 fits 'min(1/2)' 'Size: 2 times 3 to the 1 over 2 times 5 to the 1 over 2 times second to the 1 over 2.'
has 0 fits marcmin 'Size: 3/50 of an arcsecond.'
has 0 cds % 'Size: 1/100.'
has 0 cds 10+3pix/h 'Accepted: ten to the 3 pixel hour to the minus 1.' 'Size: 5/18 of a pixel per second.'
has 0 fits furlong 'Accepted, but 1 unit is unknown: furlong.' 'It reads: femto unit u r l o n g end.'
has 0 vou "'furlong'" "Accepted, but 1 unit is unknown: 'furlong'." 'It reads: unit f u r l o n g end.'
has 0 ogip erg/kmin 'Accepted, but with an unlawful prefix in OGIP: kmin.' 'Not recommended: erg.'
has 0 fits KM/S 'Did you mean: km/s'
has 0 ogip KM/S/MPC 'Did you mean: km/s/Mpc' 'Did you mean: km/s/mpc'
for case in 'fits:kg s/m' 'ogip:kg/m s' 'cds:kg/m.s' 'vou:kg.s/m' 'starlink:kg*s/m'; do
    has 0 "${case%%:*}" "${case#*:}" 'Above the line: kilo gram, second.' 'Below the line: metre.'
done
for case in 'fits:kg/(m s)' 'ogip:kg/(m s)' 'cds:kg/(m.s)' 'vou:kg/(m.s)' 'STARLINK:kg/(m*s)'; do
    has 0 "${case%%:*}" "${case#*:}" 'Above the line: kilo gram.' 'Below the line: metre, second.'
done

# REFUSED LABELS

says 1 out read fits kg/m.s <<'END'
Refused, number 4: the label does not follow the rules of FITS.
In FITS one slash is allowed, outside groups and not after a power of ten, and one unit or group after it.
If only the unit or group straight after a slash is below the line, write: kg m-1 s
If all that follows the slash is below the line, write: kg/(m.s)
As CDS this is kilo gram metre to the minus 1 second; in FITS: kg m-1 s
END
says 1 out read ogip ph.cm-2.s-1 <<'END'
Refused, number 4: the label does not follow the rules of OGIP.
In OGIP a space or a star joins units.
In OGIP an exponent comes after two stars, in brackets if it is not whole.
As FITS this is photon centi metre to the minus 2 second to the minus 1; in OGIP: photon cm**(-2) s**(-1)
END
says 1 out read fits 'log10(count/s)' <<'END'
Refused, number 4: the label does not follow the rules of FITS.
Labels have no functions, and log10 before a bracket is one. Write the plain unit, and say the function outside the label.
Labels of FITS look like these: kg m2/s3; 10**3 erg/(s cm2); Hz(1/2)
END
says 1 out read fits 'W /m**2' <<'END'
Refused, number 4: the label does not follow the rules of FITS.
In FITS one space may join units, and there are no other spaces.
Write: W/m**2
As OGIP this is watt metre to the minus 2; in FITS: W m-2
END
says 1 out read fits 'm/s²' <<'END'
Refused, number 3: the label has signs that are not plain ASCII.
No label has a superscript two.
Write: m/s2
END
says 0 out read Starlink 'J/(m**2*Ang*count)' <<'END'
Accepted: joule metre to the minus 2 angstrom to the minus 1 count to the minus 1.
Above the line: joule.
Below the line: metre to the 2, angstrom, count.
Not recommended: Ang.
Size: 10000000000000 grams per metre per second to the 2 per count.
END
says 1 out read starlink 'J/m**2/Ang/s' <<'END'
Refused, number 4: the label does not follow the rules of Starlink.
In Starlink one slash is allowed, after a unit and outside groups, and one unit or group after it.
Write: J/(m**2*Ang*s)
END
says 1 out read starlink '10**3 erg/s' <<'END'
Refused, number 4: the label does not follow the rules of Starlink.
In Starlink no number comes before a unit; take it out and multiply the values by it.
Labels of Starlink look like these: kg*m**2/s**3; erg/(s*cm**2); Hz**(1/2)
END
has 0 starlink Angstrom 'Accepted, but 1 unit is unknown: Angstrom.' 'Did you mean: Ang'
has 0 starlink marcsec 'Accepted, but with an unlawful prefix in Starlink: marcsec.'
has 0 fits Ang 'Accepted, but 1 unit is unknown: Ang.' 'Did you mean: Angstrom'
has 1 starlink /s 'Write: s**(-1)'
has 1 fits '°C' 'Degrees Celsius and Fahrenheit are no units here. The unit of temperature is the kelvin, K.'
has 1 fits "$(printf 'm\302\240s')" 'No label has a non-breaking space.' 'Write: m s'
has 1 fits "$(printf '\265m')" 'No label has a micro sign.' 'Write: um'
has 1 fits "$(printf 'm\377')" 'No label has the byte hexadecimal FF.'
has 1 fits 'm(1/7)' 'Refused, number 5: a number is out of bounds.'
has 1 ogip 'Hz**(0.0)' 'Refused, number 5: a number is out of bounds.' 'An exponent is not 0, and may have parts that divide 60: halves, thirds, quarters, fifths, sixths and so on.'
has 1 ogip 'Hz**(00.5)' 'An exponent starts with 1 to 9, or with one 0 and a point.'
has 1 cds 'm02' 'An exponent starts with 1 to 9.'
has 1 ogip 'Hz**(0.)' 'A decimal has digits on both sides of its point.'
has 1 fits 'Hz(-.5)' 'In FITS a decimal has digits on both sides of its point.' 'Write: Hz(-1/2)'
has 1 ogip 'Hz**.5' 'In OGIP an exponent comes after two stars, in brackets if it is not whole.' 'Write: Hz**(1/2)'
has 1 cds 'Hz(0.5)' 'As FITS this is hertz to the 1 over 2, which CDS does not have.'
has 1 fits '(((((((((m)))))))))' 'Refused, number 6: more than 8 brackets are open at once.'
has 1 cds "$(printf '%32s' '' | sed 's/ /m./g')m" 'Refused, number 7: the label has more than 32 terms.'
has 1 fits "$(printf '%300s' '' | tr ' ' m)" 'Refused, number 2: the label has more than 255 bytes.'
has 1 cds --- 'Write the empty label.'
has 1 ogip 'm,s' 'No OGIP label has a comma.'
has 1 fits 'e-/s' 'A hyphen is only the minus sign of a number.'
has 1 fits '(m s)2' 'A group takes no exponent. Give each unit in it its own.'
has 1 cds 20% 'The only numbers before a unit are powers of ten. Take this one out and multiply the values by it.'
has 1 cds erg/s.Å 'The unit erg is unknown in CDS.'
has 1 fits % 'As CDS this is percent, which FITS does not have.'
has 1 ogip m2 'FITS and CDS accept the label as it stands.' 'Write: m**2'
has 0 all kg/m.s 'Accepted in CDS. Refused in FITS, OGIP, VOUnits, Starlink.' 'In CDS: Accepted: kilo gram metre to the minus 1 second.' 'In FITS: Refused, number 4: the label does not follow the rules of FITS.'
has 1 ALL 'm,s' 'Accepted in none. Refused in FITS, OGIP, CDS, VOUnits, Starlink.' 'In VOUnits: Refused, number 4: the label does not follow the rules of VOUnits.'

# WORDS

says 0 out words cds 'kg/m.s' <<'END'
kilo gram metre to the minus 1 second
END
says 0 out words FITS '10-12 daX(-3/2)' <<'END'
ten to the minus 12 deca unit X end to the minus 3 over 2
END
says 0 out words vou '' <<'END'

END
says 0 out words vou "'end'.erg/end" <<'END'
unit e n d end erg unit e n d end to the minus 1
END
says 1 err words vou kg/m.s <<'END'
Refused, number 4: the label does not follow the rules of VOUnits.
In VOUnits one slash is allowed, after a unit, and one unit or group after it.
If only the unit or group straight after a slash is below the line, write: kg.m**-1.s
If all that follows the slash is below the line, write: kg/(m.s)
As CDS this is kilo gram metre to the minus 1 second; in VOUnits: kg.m**-1.s
END
longest=10-9$(printf '%31s' '' | sed 's| |/hAU|g')/h$(printf '%125s' '' | tr ' ' x)
run words cds "$longest"
[ "$status" = 0 ] && [ "$(wc -c <"$directory/out")" = 1477 ] || fail "the longest words: status $status, not 1476 bytes and the end of a line"
# the stored words
awk -F '\t' '
    function text(hex,    i, s) { for (i = 1; i < length(hex); i += 2) s = s sprintf("%c", (index("0123456789abcdef", substr(hex, i, 1)) - 1) * 16 + index("0123456789abcdef", substr(hex, i + 1, 1)) - 1); return s }
    { split("fits ogip cds vou starlink", names, " "); print names[$1] "\t" text($2) "\t" $3 }' vectors/words.tsv >"$directory/stored"
while IFS="$(printf '\t')" read -r notation label words; do
    run words "$notation" "$label"
    [ "$status" = 0 ] && [ "$(cat "$directory/out")" = "$words" ] || fail "words $notation $label: not $words"
done <"$directory/stored"
# what is spoken, as a sound file, where there is a voice
if command -v espeak-ng >/dev/null; then
    "$command" words cds kg/m.s | espeak-ng -w "$directory/spoken.wav"
    [ "$(head -c 4 "$directory/spoken.wav")" = RIFF ] && [ "$(wc -c <"$directory/spoken.wav")" -gt 20000 ] || fail 'espeak-ng: no sound'
    tried=$((tried + 1))
else
    echo 'espeak-ng is not installed: no label was spoken aloud'
fi

# REWRITING, CONVERTING, LISTING

says 0 out rewrite cds 10+3pix/h ogip <<'END'
10**3 pixel h**(-1)
END
says 0 out rewrite fits '' vou <<'END'

END
says 0 out rewrite starlink 'J/(m**2*Ang*count)' fits <<'END'
J m-2 Angstrom-1 count-1
END
says 0 out rewrite starlink 'J/(m**2*Ang*count)' ogip <<'END'
J m**(-2) angstrom**(-1) count**(-1)
END
says 0 out rewrite starlink 'J/(m**2*Ang*count)' vou <<'END'
J.m**-2.angstrom**-1.count**-1
END
says 1 err rewrite starlink 'J/(m**2*Ang*count)' cds <<'END'
Refused, number 12: the label has no form in CDS.
Ang is angstrom in Starlink, but would be unit A n g end in CDS.
END
says 0 out rewrite ogip 'erg/s/cm**2/angstrom' starlink <<'END'
erg*s**(-1)*cm**(-2)*Ang**(-1)
END
says 0 out rewrite ogip '1 m' starlink <<'END'
m
END
says 1 err rewrite ogip '10**-17 erg/s' starlink <<'END'
Refused, number 12: the label has no form in Starlink.
The power of ten is minus 17. In Starlink no number comes before a unit; take it out and multiply the values by it.
END
says 1 err rewrite ogip ph vou <<'END'
Refused, number 12: the label has no form in VOUnits.
ph is pico hour in OGIP, but would be photon in VOUnits.
END
says 1 err rewrite fits 'Hz(1/2)' cds <<'END'
Refused, number 12: the label has no form in CDS.
Hz has the exponent 1/2. In CDS an exponent is a whole number straight after its unit.
END
says 1 err rewrite cds 'm.%' fits <<'END'
Refused, number 12: the label has no form in FITS.
% is percent in CDS, which FITS does not have.
END
says 1 err rewrite fits "$(printf '%32s' '' | sed 's/ /m-99 /g; s/ $//')" ogip <<'END'
Refused, number 13: the label would have more than 255 bytes in OGIP.
END
says 1 err rewrite cds 'km s-1' fits <<'END'
Refused, number 4: the label does not follow the rules of CDS.
In CDS a point joins units.
FITS accepts the label as it stands.
Write: km.s-1
END
says 0 out convert cds km/h fits m/s <<'END'
1 km/h is 5/18 m/s.
n = 1, d = 36, k = 1: the factor is n/d times ten to the k.
END
says 0 out convert fits h fits min <<'END'
1 h is 60 min.
n = 6, d = 1, k = 1: the factor is n/d times ten to the k.
END
says 0 out convert fits deg fits arcmin --long <<'END'
1 deg is 60 arcmin.
n = 6, d = 1, k = 1: the factor is n/d times ten to the k.
END
says 0 out convert fits byte fits bit <<'END'
1 byte is 8 bit.
END
says 0 out convert fits Ym fits ym <<'END'
1 Ym is ten to the 48 ym.
n = 1, d = 1, k = 48: the factor is n/d times ten to the k.
END
says 0 out convert cds % fits '' <<'END'
1 % is 1/100.
n = 1, d = 1, k = minus 2: the factor is n/d times ten to the k.
END
says 1 err convert fits furlong ogip m <<'END'
Refused, number 8: a unit is unknown, and so is its size.
Unknown in the first label, in FITS: furlong.
END
says 1 err convert cds deg fits rad <<'END'
Refused, number 9: the dimensions differ.
The dimensions of the first label: arcsecond.
The dimensions of the second label: radian.
END
says 1 err convert fits 'min(1/2)' fits 's(1/2)' <<'END'
Refused, number 10: the factor between the labels is a root, not a fraction.
END
says 1 err convert fits yr99 fits s99 <<'END'
Refused, number 11: the factor has more than 53 bits above or below its line, or a power of ten beyond 9999.
END
says 1 err convert fits m ogip m2 <<'END'
The second label cannot be read.
Refused, number 4: the label does not follow the rules of OGIP.
In OGIP an exponent comes after two stars, in brackets if it is not whole.
FITS and CDS accept the label as it stands.
Write: m**2
END
# every name that vectors/symbols.tsv has without a prefix as a known unit is listed, and nothing else, with its lawful prefixes
for n in 1:fits 2:ogip 3:cds 4:vou 5:starlink; do
    run list "${n#*:}"
    [ "$status" = 0 ] || fail "list ${n#*:}: status $status"
    awk -v n="${n%%:*}" '
        function text(hex,    i, s) { for (i = 1; i < length(hex); i += 2) s = s sprintf("%c", (index("0123456789abcdef", substr(hex, i, 1)) - 1) * 16 + index("0123456789abcdef", substr(hex, i + 1, 1)) - 1); return s }
        $1 == n && $5 ~ /^y/ { t = text($2); if ($7 ~ /:-:/) names[t] = 1; else if ($7 ~ /:ten\^3:/ && $5 ~ /^yy/) kilo[substr(t, 2)] = 1 }
        END { for (t in names) print t ": " (t in kilo ? "takes prefixes" : "no prefixes") }' vectors/symbols.tsv | sort >"$directory/wanted"
    sed 's/: .*, /: /' "$directory/out" | sort | diff - "$directory/wanted" || fail "list ${n#*:}: other units"
done
run list fits
grep -qx 'mol: mole, takes prefixes' "$directory/out" || fail 'list fits: no mole'
# a unit is listed by the name that is spoken, in words of its own where that is two words in one
for notation in fits ogip cds vou starlink; do
    "$command" list "$notation" | sed 's/,.*//' >"$directory/units"
    while IFS= read -r line; do
        run words "$notation" "${line%%: *}"
        spoken=$(cat "$directory/out")
        case $line in u:*) [ "$spoken" = dalton ] ;; adu:*) [ "$spoken" = datanumber ] ;;
        *) [ "$spoken" = "$(echo "${line#*: }" | tr -d ' ' | tr 'A-Z' 'a-z')" ] ;;
        esac || fail "words $notation ${line%%: *}: $spoken"
    done <"$directory/units"
done

# WRONG CALLS AND HELP

for arguments in '' write read 'read fits' 'read fits kg m' 'read --vector' 'read --vectors x y' 'read iso m' 'rewrite fits m' 'rewrite fits m iso' \
    'rewrite --vectors' 'words fits' 'words iso m' 'words --vectors' 'words all m' 'convert fits m ogip' 'convert iso m fits m' 'list' 'list all' 'convert all m fits m' --long 'list fits m' 'x y z u v w q'; do
    # shellcheck disable=SC2086 # the words are arguments
    run $arguments
    [ "$status" = 2 ] || fail "thalinguze $arguments: status $status, not 2"
    [ ! -s "$directory/out" ] || fail "thalinguze $arguments: words on standard output"
    grep -qx 'For help: thalinguze --help' "$directory/err" || fail "thalinguze $arguments: no pointer to help"
done
for arguments in --help 'read --help' 'convert -h'; do
    # shellcheck disable=SC2086
    run $arguments
    [ "$status" = 0 ] || fail "thalinguze $arguments: status $status"
    awk 'length > 80 { print; exit 1 }' "$directory/out" || fail 'the help has more than 80 columns'
    grep -q '^usage: thalinguze read NOTATION LABEL' "$directory/out" || fail "thalinguze $arguments: no usage"
done
version=$(sed -n "s/^#define THALINGUZE_VERSION_[A-Z]* \([0-9]*\)$/\1/p" include/thalinguze.h | paste -s -d .)
says 0 out --version <<END
thalinguze $version
END
if [ -w /dev/full ]; then
    for arguments in --help 'read cds m' 'rewrite cds m fits' 'convert cds m fits m' 'words cds m' 'list cds'; do
        status=0
        # shellcheck disable=SC2086
        "$command" $arguments >/dev/full 2>/dev/null || status=$?
        [ "$status" = 2 ] || fail "thalinguze $arguments into a full device: status $status, not 2"
        status=0
        # shellcheck disable=SC2086
        "$command" $arguments >&- 2>/dev/null || status=$?
        [ "$status" = 2 ] || fail "thalinguze $arguments into a closed output: status $status, not 2"
        tried=$((tried + 2))
    done
fi

# VECTORS

# vectors COMMAND STATUS INPUT OUTPUT: both with \n for the end of a line
vectors() {
    status=0
    printf "%b" "$3" | "$command" "$1" --vectors >"$directory/out" 2>"$directory/err" || status=$?
    tried=$((tried + 1))
    [ "$status" = "$2" ] || fail "vectors $3: status $status, not $2"
    printf "%b" "$4" | diff "$directory/out" - || fail "vectors $3: other lines"
}
metre='0 k=0 yyy place=0 [0+1:-:m:1] {m:1} 0/0/0/0'
refused='k=0 nnn place=0 [] {} 0/0/0/0'
for name in read convert; do
    vectors "$name" 0 '' ''
done
vectors read 0 '1 6d\n' "1 6d $metre\n"
vectors read 0 '1 6d' "1 6d $metre\n"
vectors read 0 '1 6D\n01 6d\n' "1 6D $metre\n01 6d $metre\n"
vectors read 0 '4 -\n' '4 - 0 k=0 yyy place=0 [] {} 0/0/0/0\n'
vectors convert 0 '3 6b6d2f68 1 6d2f73\n01 - 4 -' '3 6b6d2f68 1 6d2f73 0 1 36 1\n01 - 4 - 0 1 1 0\n'
for number in -1 -3 0 6 257 65537 4294967295 4294967296 4294967297 18446744073709551617 -4294967295 \
    340282366920938463463374607431768211457 99999999999999999999999999999999999999999999999999999999999999; do
    vectors read 0 "$number 6d\n" "$number 6d 1 $refused\n"
    vectors convert 0 "1 6d $number 6d\n" "1 6d $number 6d 1 0 1 0\n"
done
for malformed in '' ' ' 'x 6d' '1' '1 ' '1  6d' '1 6' '1 6g' '1 6d ' '1 6d x' '- 6d' '+1 6d' '1.0 6d' '1 --' ' 1 6d' '1 6d\r' '1 6d\0'; do
    vectors read 2 "1 6d\n$malformed\n2 6d\n" "1 6d $metre\n2 6d $metre\n"
    grep -q '^thalinguze: line 2 is malformed' "$directory/err" || fail "vectors $malformed: no line number"
    for line in "$malformed" "1 6d $malformed" "$malformed 1 6d"; do
        [ "$line" = '1 6d 1 6d' ] || vectors convert 2 "1 6d 1 6d\n$line\n1 - 2 -\n" '1 6d 1 6d 0 1 1 0\n1 - 2 - 0 1 1 0\n'
    done
done
hex=$(printf '%255s' '' | sed 's/ /6d/g')
vectors read 0 "3 $hex\n3 ${hex}6d\n" "3 $hex 0 k=0 nyn place=0 [0+255:ten^-3:?$(printf '%254s' '' | tr ' ' m):1] {} -3/0/-3/0\n3 ${hex}6d 2 $refused\n"
awk 'BEGIN { printf "3 "; for (i = 0; i < 200000; i++) printf "6d"; printf "\n" }' >"$directory/long"
"$command" read --vectors <"$directory/long" | awk -v wanted="2 $refused" '
    { good = length($2) == 400000 && substr($0, 3 + 400000 + 1) == wanted } END { exit !(good && NR == 1) }' || fail 'a label of 200000 bytes'
cut -d' ' -f1-4 vectors/converts.tsv | "$command" convert --vectors | cmp - vectors/converts.tsv || fail 'conversions differ from vectors/converts.tsv'
tried=$((tried + 2))
if [ -w /dev/full ]; then
    status=0
    printf '1 6d\n' | "$command" read --vectors >/dev/full 2>/dev/null || status=$?
    [ "$status" = 2 ] || fail "vectors into a full device: status $status, not 2"
    tried=$((tried + 1))
fi
echo "the command says what it should in $tried runs"
