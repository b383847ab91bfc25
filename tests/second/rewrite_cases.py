"""Cases for rewriting: (source, label, target, buffer length)."""
from fractions import Fraction
from random import Random

from . import decimal_cases, starlink_cases
from .labels import ALL_NAMES, label
from .notations import CDS, FITS, NO_NOTATIONS, NOTATIONS, OGIP, STARLINK, VOUNITS
from .symbols import spellings
from .writing import JOIN, rewrite, written_exponent, written_factor

ROOM = 255


def written(notation, k, terms):
    """A label of pairs of a spelling and an exponent; None where k or an exponent has no form."""
    factor, exponents = written_factor(notation, k), [written_exponent(notation, Fraction(exponent)) for _, exponent in terms]
    if factor is None or None in exponents:
        return None
    words = [spelling + exponent for (spelling, _), exponent in zip(terms, exponents)]
    return (factor + JOIN[notation].join(words)).encode('ascii')


def into_all(cases):
    """Pairs of a source and a label, into every notation."""
    return [(source, data, target, ROOM) for source, data in cases for target in NOTATIONS]


def every_symbol():
    """Every known unit with every prefix from every notation into every notation."""
    return into_all((source, spelling.encode('ascii')) for source in NOTATIONS for spelling in spellings(source))


def special():
    """Labels that document 01 or its decisions name."""
    words = {
        FITS: "m angstrom Angstrom cph Pa kmin m(1/2) m(2/2) m**(1.50) kg/(m*s) furlong u uu ph beam pix",
        OGIP: "ph u dadu da mas pix cd photon count ohm angstrom m**-2 m**(1.5) 100m 1/m a Ohm",
        CDS: "% %2 %/s 10+3% %.%-2 mas pixel da kg/m.s 10+3pix/h u ph erg dadu a Pa m/(s.(g/K))",
        VOUNITS: "'xyz' k'xyz' 'm' k'm' 'furlong' d'ax' da'm' d'a' da'du' 'da' 'q' 'qq'**(1/2) f'urlong' 'ph' kg/(m.s) p'h' 'Pa' P'a'"
                 " h'erg' 'erg' furlong y'y' d'u' 'u' ph angstrom Angstrom 'bit' Y'ohm' 'ohm'",
        STARLINK: "J/(m**2*Ang*count) Ang kAng angstrom Angstrom ph u dadu da mas pix photon count ohm Ohm m**-2 m**(1.5) m/s**(1/2) a cd furlong",
    }
    cases = {source: [''] + words[source].split() for source in NOTATIONS}
    return into_all((source, text.encode('ascii')) for source in NOTATIONS for text in cases[source])


def numbers():
    """Factors and exponents at their bounds."""
    powers = [(k, [('m', 1)]) for k in (-99, -10, -1, 1, 9, 10, 99)]
    exponents = [1, -1, 2, -2, 99, -99, '1/2', '-1/2', '3/2', '1/60', '-1/60', '5939/60', '-5939/60', '99/4', '-197/2']
    cases = powers + [(k, [('s', exponent), ('kg', 2)]) for k in (0, -3) for exponent in exponents]
    made = [(source, written(source, *case)) for source in NOTATIONS for case in cases]
    return into_all((source, data) for source, data in made if data is not None)


def decimals():
    """Decimals and what looks like one: into every notation; in other notations' forms, which are refused, into one; a few with each buffer."""
    found = into_all(decimal_cases.own()) + [(source, data, OGIP, ROOM) for source, data in decimal_cases.foreign()]
    return found + buffers(into_all(decimal_cases.halves()))


def starlink():
    """Starlink's edges and labels with Ang or a factor, into every notation and into numbers that are none; every name into and from Starlink."""
    found = into_all(starlink_cases.labels() + starlink_cases.rewritten())
    found += [(source, data, target, ROOM) for source, data in starlink_cases.rewritten() for target in NO_NOTATIONS]
    pairs = [(source, STARLINK) for source in NOTATIONS] + [(STARLINK, target) for target in NOTATIONS if target != STARLINK]
    found += [(source, name.encode('ascii'), target, ROOM) for source, target in pairs for name in ALL_NAMES]
    return found + buffers(into_all([(STARLINK, b'J/(m**2*Ang*count)'), (STARLINK, b'Ang'), (STARLINK, b'')]))


def of_length(source, target, length):
    """A label whose result has that many bytes: unknown letters divided by as many seconds as fit."""
    for seconds in (31, 20, 10):
        letters = length - seconds * len(JOIN[target] + 's' + written_exponent(target, Fraction(-1)))
        data = ('q' * letters + '/(' + JOIN[source].join(['s'] * seconds) + ')').encode('ascii')
        if letters > 0 and len(data) <= 255:
            return data
    raise AssertionError((source, target, length))


def lengths():
    """Results of 253 to 257 bytes, into buffers around each length."""
    cases = []
    for source in NOTATIONS:
        for target in NOTATIONS:
            for length in (253, 254, 255, 256, 257):
                data = of_length(source, target, length)
                cases += [(source, data, target, size) for size in (0, 1, 252, 253, 254, 255, 256, 257, 1000)]
    return cases


def buffers(cases):
    """Each case with buffers that are empty, one short, exact, longer and of 255 bytes and more."""
    found = []
    for source, data, target, _ in cases:
        length = len(rewrite(source, data, target, ROOM)[1])
        found += [(source, data, target, size) for size in sorted({0, max(length - 1, 0), length, length + 1, 255, 256, 4096})]
    return found


def refused():
    """Labels for each refusal of 1 to 7, with targets that are notations and that are none."""
    brackets, closing = b'(' * 9, b')' * 9
    labels = {}
    for notation in NOTATIONS:
        terms = JOIN[notation].join(['m'] * 33).encode('ascii')
        labels[notation] = [b'm', b'm' * 256, b'\x1f', b'm\x7f', b'm\xff', b'm\0', b'm..m', b'm000', terms, brackets + b'm' + closing,
                            brackets + terms + closing, written(notation, 0, [('m', 100)]), written(notation, 100, [('m', 1)])]
    sources = [(source, data) for source in NOTATIONS for data in labels[source] if data is not None]
    sources += [(source, data) for source in NO_NOTATIONS for data in (b'm', b'', b'm' * 256, b'\xff')]
    targets = NO_NOTATIONS + (FITS, OGIP, VOUNITS, STARLINK)
    return [(source, data, target, size) for source, data in sources for target in targets for size in (0, ROOM)]


def order():
    """12 before 13 before 14."""
    long = b'/(' + b'.'.join([b's'] * 31) + b')'
    labels = (b'%', b'q' * 180, b'10+3m', b'10+3' + b'q' * 180)
    return [(CDS, data + long, target, size) for data in labels for target in NOTATIONS for size in (0, 10, ROOM)]


def cases(seed, count, everything):
    random = Random(seed)
    symbols = every_symbol()
    if not everything:
        symbols = random.sample(symbols, min(count // 2, len(symbols)))
    found = special() + buffers(special()[::3]) + numbers() + decimals() + starlink() + lengths() + refused() + order() + symbols
    for _ in range(count - count // 2):
        source, target = random.choice(NOTATIONS), random.choice(NOTATIONS)
        size = random.choice([ROOM] * 8 + [0, 3, 10, 20, 30, 254, 256])
        # one of 25 results is about as long as a label may be
        data = of_length(source, target, random.randint(240, 270)) if random.random() < 0.04 else label(random, source)
        found.append((source, data, target, size))
    return found


def text(seed, count, everything):
    lines = ['%d %s %d %d\n' % (source, data.hex() or '-', target, size)
             for source, data, target, size in cases(seed, count, everything)]
    return ''.join(lines).encode('ascii')
