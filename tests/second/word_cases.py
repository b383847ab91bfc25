"""Cases for words: (notation, label, buffer length)."""
from fractions import Fraction
from random import Random

from . import decimal_cases, rewrite_cases, spoken, starlink_cases
from .labels import LETTERS, PREFIX_NAMES, label
from .notations import CDS, FITS, NO_NOTATIONS, NOTATIONS, OGIP, STARLINK, VOUNITS
from .reading import read
from .rewrite_cases import written
from .speaking import RESERVED, WORDS, speak
from .spoken import ROOM
from .symbols import spellings
from .writing import JOIN

LARGE = 4096
DENOMINATORS = [q for q in range(1, 61) if 60 % q == 0]


def whole(cases):
    """Pairs of a notation and a label, with room for any words."""
    return [(notation, data, ROOM) for notation, data in cases]


def length(notation, data):
    return len(speak(notation, data, LARGE)[1])


def buffers(cases):
    """Each pair with buffers that are empty, one short, exact and longer."""
    return [(notation, data, size) for notation, data in cases
            for words in [length(notation, data)] for size in sorted({0, 1, max(words - 1, 0), words, words + 1, ROOM, LARGE})]


def every_symbol():
    """Every known unit with every prefix and without, in every notation."""
    return whole((notation, spelling.encode('ascii')) for notation in NOTATIONS for spelling in spellings(notation))


def named():
    """The labels that document 01 or its decisions name, and those whose words are stored."""
    found = [(notation, data) for notation, data, _, _ in rewrite_cases.special()] + spoken.labels()
    return list(dict.fromkeys(found))


def longest():
    """No label has longer words than the first, which has 255 bytes and 1,476 of words; then a letter less and a letter more. The others are
    Starlink's, which has no factor and one slash."""
    labels = [b'10-9' + b'/hAU' * 31 + b'/h' + b'x' * letters for letters in (125, 124, 126)]
    assert [len(data) for data in labels] == [255, 254, 256] and length(CDS, labels[0]) == ROOM
    labels += [b'h' + b'x' * letters + b'/(' + b'*'.join([b'hAU'] * 31) + b')' for letters in (128, 127, 129)]
    sizes = (0, 1, 255, 256, ROOM - 3, ROOM - 2, ROOM - 1, ROOM, ROOM + 1, LARGE)
    return [(notation, data, size) for notation in NOTATIONS for data in labels for size in sizes]


def powers():
    """Every whole exponent and every k to one past the bound; every denominator of 60 and all others to 61; each in each notation."""
    whole_numbers = [number for number in range(-100, 101) if number]
    fractions = [Fraction(p, q) for q in DENOMINATORS for size in (1, q - 1, q + 1, 99 * q - 1, 99 * q, 99 * q + 1) for p in (size, -size) if p]
    fractions += [Fraction(1, q) for q in range(1, 62)]
    labels = [(0, [('m', exponent)]) for exponent in whole_numbers + sorted(set(fractions))]
    labels += [(k, [('m', 1)]) for k in whole_numbers] + [(k, [('s', k), ('kg', -k)]) for k in (-99, -1, 1, 2, 99)]
    made = [(notation, written(notation, *parts)) for notation in NOTATIONS for parts in labels]
    return whole((notation, data) for notation, data in made if data is not None)


def numerals():
    """Exponents that are not in lowest terms, those that come to 1, which are not spoken, and other forms of factors: with k = 0, k isn't."""
    texts = {
        FITS: 'm1 m+1 m(1) m(2/2) m(60/60) m(1.0) m**+1 m^1 m(2/4) m(-15/60) m(9999/9999) m(9999/101) m(10000/10000) m(1.5) m(-1.50) m(1.0000)'
              ' m(1.00000) m(98.95) /m-1 /m /(m-1.s) 10+1m 10-1m 10^2m 10**(-3)m 10**+99m 10**+100m 10**9999m 10**10000m',
        OGIP: 'm**1 m**+1 m**(1) m**(2/2) m**(2/4) m**(-15/60) m**(1.50) m**(98.95) /m**-1 1m 10m 100m 1/m 1000000m 10**2m 10**(-3)m',
        CDS: 'm1 m+1 /m-1 /m1 /m+1 1m 10m 100m 1/m 10+1m 10-1m 10**-2m 10**+2m m9999 m10000 m/(s-1/g) 10+99m 10-100m',
        VOUNITS: 'm**1 m**+1 m**(1) m**(2/2) m**(2/4) m**(-15/60) m**(1.50) m**(98.95) s/m**-1 1m 10m 100m 10**2m 10**(-3)m m/(s/g)',
        STARLINK: 'm**1 m**+1 m**(1) m**(2/2) m**(2/4) m**(-15/60) m**(1.50) m**(98.95) s/m**-1 s/(m**-1*g**(-1/2)) 1m 1*m 10**2*m m**9999',
    }
    found = [(notation, text.encode('ascii')) for notation in NOTATIONS for text in texts[notation].split()]
    return whole(found + [(notation, b'1' + b'0' * zeros + b'm') for notation in (OGIP, CDS, VOUNITS) for zeros in (98, 99, 100)])


def decimals():
    """Decimals and what looks like one, and a few with each buffer."""
    return whole(decimal_cases.own() + decimal_cases.foreign()) + buffers(decimal_cases.halves())


def starlink():
    """Starlink's edges, labels with a factor or with each name of the angstrom, and a few with each buffer."""
    found = starlink_cases.labels() + starlink_cases.rewritten()
    return whole(found) + buffers((STARLINK, data) for data in (b'J/(m**2*Ang*count)', b'Ang', b'kAng**(-1/2)', b'(m*(s*q))/kg'))


def limits():
    """255 bytes, 32 terms and 8 brackets, those of groups and of powers alike, and one below and above each."""
    power = {FITS: b'm(2)', OGIP: b'm**(2)', CDS: b'm2', VOUNITS: b'm**(2)', STARLINK: b'm**(2)'}
    found = []
    for notation in NOTATIONS:
        found += [(notation, letter * count) for letter in (b'q', b'm') for count in (254, 255, 256)]
        found += [(notation, JOIN[notation].join([name] * count).encode('ascii'))
                  for name in ('m', 'ksolLum', 'AU') for count in (31, 32, 33)]
        found += [(notation, b'(' * depth + inner + b')' * depth) for depth in (6, 7, 8, 9) for inner in (b'm', power[notation])]
    return buffers(found)


def unknown():
    """Single letters, and letters that spell a reserved word or a spoken name: plain, after a prefix, quoted, and both."""
    spelt = list(LETTERS) + RESERVED + WORDS + 'Unit END tens metremetre unitend kiloend tothe'.split()
    found = [(notation, prefix + letters) for notation in NOTATIONS for letters in spelt for prefix in ('', 'k', 'da')]
    found += [(VOUNITS, "%s'%s'" % (prefix, letters)) for letters in spelt for prefix in ('', 'k', 'da')]
    found += [(VOUNITS, "%s'%s'" % (prefix, letters)) for letters in ('m', 'end', 'a', 'ay') for prefix in PREFIX_NAMES]
    return whole((notation, text.encode('ascii')) for notation, text in found)


def alike():
    """Labels of which one could be spoken as another: one unit and two, prefixes and letters, exponents and k, a unit's order and number."""
    texts = ("'ab' 'a'.'b' 'a'.b a.'b' 'ba' 'a'**2.'b' 'a'.'b'**2 k'a'.'b' 'a'.k'b' 'end'.'unit' 'endunit' 'unitaend' 'a' 'aa' 'a'.'a'"
             " m.s s.m ms mas marcsec mm m.m m**2 k'm' km k.m 10**3m m**3 10m 'ten'.m 10**2m**2 10**2m 'm'.m m.'m' m**(1/2).m m**(1/20).m"
             " m**(3/2).m**2 m**(3/20) m**-3 m.s**-1 m**-1.s m/s 10**-3m 10**3/m yr a pix pixel count ct ph photon")
    return buffers((VOUNITS, text.encode('ascii')) for text in texts.split())


def refused():
    """Labels for each refusal of 1 to 7, with room for any words and for none: 14 comes after these."""
    labels = [(notation, data) for notation, data, _, _ in rewrite_cases.refused()]
    labels += [(notation, data) for notation in NO_NOTATIONS for data in (b'm', b'', b'm' * 256, b'\xff', b'm(')]
    return [(notation, data, size) for notation, data in dict.fromkeys(labels) for size in (0, 1, ROOM)]


def random_case(random):
    notation = random.choice(NOTATIONS)
    data = label(random, notation)
    if random.random() < 0.02:
        return random.choice(NO_NOTATIONS), data, ROOM
    if random.random() < 0.7 or read(notation, data).number:
        return notation, data, ROOM
    words = length(notation, data)
    return notation, data, random.choice([words, words + 1, max(words - 1, 0), max(words - 1, 0), random.randint(0, words)])


def cases(seed, count, everything):
    random = Random(seed)
    found = buffers(named()) + longest() + powers() + numerals() + decimals() + starlink() + limits() + unknown() + alike() + refused()
    found += every_symbol() if everything else []
    return found + [random_case(random) for _ in range(count)]


def text(seed, count, everything):
    return ''.join('%d %s %d\n' % (notation, data.hex() or '-', size) for notation, data, size in cases(seed, count, everything)).encode('ascii')
