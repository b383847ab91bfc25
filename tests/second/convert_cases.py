"""Cases for converting: (notation, label, notation, label)."""
from fractions import Fraction
from random import Random

from . import decimal_cases, starlink_cases
from .converting import LARGEST, LARGEST_POWER
from .labels import PREFIX_NAMES, label
from .notations import CDS, FITS, NO_NOTATIONS, NOTATIONS, OGIP, STARLINK, VOUNITS
from .rewrite_cases import written
from .symbols import NAMES, SHOWN, SIZE, symbol


def both_ways(cases):
    return [case for first, above, second, below in cases for case in ((first, above, second, below), (second, below, first, above))]


def in_notations(above, below, notations=NOTATIONS):
    """Two labels, each (k, terms), in every pair of notations that has a form for them."""
    pairs = [(first, written(first, *above), second, written(second, *below)) for first in notations for second in notations]
    return both_ways(pair for pair in pairs if pair[1] is not None and pair[3] is not None)


def every_pair():
    """Every pair of known units in every pair of notations."""
    units = [(notation, name.encode('ascii')) for notation in NOTATIONS for name in sorted(NAMES[notation])]
    return [first + second for first in units for second in units]


def special():
    """Labels that document 01 or its decisions name."""
    texts = [
        # P12, and what is named under "Sizes and conversion"
        (CDS, 'km/h', CDS, 'm/s'), (CDS, 'deg', CDS, 'rad'), (CDS, 'deg', FITS, 'arcsec'), (CDS, 'mas', OGIP, 'deg'),
        (CDS, '%', FITS, ''), (FITS, 'Jy', CDS, '10-23g/s2'), (FITS, 'barn', CDS, '10-28m2'), (CDS, 'lx.m2', FITS, 'lm'),
        (FITS, 'C V', OGIP, 'J'), (FITS, 'S Ohm', FITS, ''), (FITS, 'F V', FITS, 'A s'), (FITS, 'J', FITS, 'erg'), (FITS, 'T', FITS, 'G'),
        (OGIP, '1000m', CDS, '10-3m'),
        # one unit under two names, and spellings that are other units elsewhere
        (CDS, 'pix', OGIP, 'pixel'), (FITS, 'ct', OGIP, 'count'), (CDS, 'a', OGIP, 'yr'), (CDS, 'Ohm', OGIP, 'ohm'),
        (FITS, 'Angstrom', OGIP, 'angstrom'), (OGIP, 'ph', VOUNITS, 'ph'), (CDS, 'pixel', OGIP, 'pixel'), (VOUNITS, "'m'", VOUNITS, 'm'),
        # no terms, and terms that cancel
        (FITS, '', VOUNITS, ''), (FITS, 'm m-1', CDS, ''), (FITS, 'm s-1', FITS, 's-1 m'), (FITS, 'q/q', FITS, ''), (FITS, 'q', FITS, 'q'),
        # the order of 4, 5, 8, 9, 10 and 11
        (FITS, 'q', FITS, 'm('), (FITS, 'm(', FITS, 'm0'), (FITS, 'm(1/7)', FITS, 'm('), (FITS, 'q', FITS, 'rad'),
        (FITS, 'd(1/2)', FITS, 'rad'), (FITS, 'Ym99 Ym99 Ym99 Ym99 Ym99 d(1/2)', FITS, 'm99 m99 m99 m99 m99 s(1/2)'),
        # 2 to the 53
        (VOUNITS, 'byte**17.byte**(2/3)', VOUNITS, 'bit**17.bit**(2/3)'),
    ]
    return both_ways((first, above.encode('ascii'), second, below.encode('ascii')) for first, above, second, below in texts)


def refused():
    """Refusals 1 to 7 of either label: the first label's come first."""
    labels = [(FITS, b'm'), (FITS, b'q'), (FITS, b'm' * 256), (CDS, b'm\x80'), (VOUNITS, b'/m'), (OGIP, b'm**100'),
              (FITS, b'(' * 9 + b'm' + b')' * 9), (CDS, b'.'.join([b'm'] * 33)), (STARLINK, b'/m'), (STARLINK, b'm**100')]
    labels += [(number, b'm') for number in NO_NOTATIONS]
    return [first + second for first in labels for second in labels]


def roots():
    """Roots that cancel and roots that do not."""
    units = (('h', 's'), ('d', 's'), ('min', 's'), ('yr', 's'), ('deg', 'arcsec'), ('byte', 'bit'), ('km', 'm'), ('Mm', 'm'))
    exponents = ('1/2', '-1/2', '1/3', '2/3', '1/4', '1/60', '7/60', '-59/60')
    pairs = [([(name, exponent)], [(base, exponent)]) for name, base in units for exponent in exponents]
    pairs += [([('d', '1/2'), ('d', '1/2')], [('s', 1)]), ([('min', '1/2'), ('h', 1), ('min', '1/2')], [('s', 2)]),
              ([('d', '1/2'), ('min', '1/2')], [('s', 1)]), ([('d', '1/2')], [('min', '1/2')]), ([('d', '1/2')], [('h', '1/2')]),
              ([('yr', '1/3'), ('yr', '2/3')], [('d', '1/3'), ('h', '2/3')]), ([('yr', '1/2')], [('yr', '1/2')]),
              ([('Myr', '1/2')], [('yr', '1/2')]), ([('kyr', '1/3')], [('yr', '1/3')]), ([('m', '1/2')], [('m', '1/3')])]
    return [case for above, below in pairs for case in in_notations((0, above), (0, below))]


def of_size(twos, threes, many_487):
    """Terms and their bases, for a factor of 2, 3 and 487 to these powers and a power of ten."""
    minutes = threes - 4 * many_487
    thirds = twos - minutes - 3 * many_487
    terms = [('byte', Fraction(thirds, 3)), ('min', Fraction(minutes)), ('yr', Fraction(many_487))]
    bases = [('bit', Fraction(thirds, 3)), ('s', Fraction(minutes + many_487))]
    return [term for term in terms if term[1]], [base for base in bases if base[1]]


def around_largest():
    """n and d at and around 2 to the 53: the nearest products of 2, 3 and 487 on both sides for each power of 3 and 487."""
    found = []
    for many_487 in range(7):
        for threes in range(0, 34, 3):
            rest = 3 ** threes * 487 ** many_487
            if rest <= LARGEST:
                most = (LARGEST // rest).bit_length() - 1
                for twos in (most, most + 1):
                    above, below = of_size(twos, threes, many_487)
                    found += in_notations((0, above), (0, below), (FITS, VOUNITS))
    for name, base, most in (('h', 's', 10), ('byte', 'bit', 17), ('deg', 'arcsec', 10), ('yr', 'd', 5), ('yr', 's', 2), ('d', 's', 5)):
        for exponent in (most, most + 1):
            found += in_notations((0, [(name, exponent)]), (0, [(base, exponent)]))
    return found


def around_largest_power():
    """k at 9,999 and 10,000 and their negatives, and far outside."""
    found = []
    for many, rest in (('Ym', 'Pm'), ('ym', 'fm')):
        sign = 1 if many == 'Ym' else -1
        for k in (-1, 0, 1):
            found += in_notations((k, [(many, 99)] * 4 + [(rest, 33)]), (0, [('m', 99)] * 4 + [('m', 33)]))
            found += in_notations((0, [(many, 99)] * 4 + [(rest, 33)]), (sign * k, [('m', 99)] * 4 + [('m', 33)]), (FITS, CDS))
    assert 4 * 24 * 99 + 15 * 33 == LARGEST_POWER
    for terms in (32, 31, 2):
        found += in_notations((99, [('ybarn', 99)] * terms), (-99, [('m', 99)] * min(2 * terms, 32)), (FITS, VOUNITS))
        found += in_notations((-99, [('ybarn', 99)] * terms), (99, [('barn', 99)] * terms), (FITS, VOUNITS))
        found += in_notations((0, [('ybarn', 99)] * terms), (0, [('Ybarn', 99)] * terms), (FITS, CDS))
    return found


def alike(notation):
    """Names that a notation knows, under each dimension."""
    found = {}
    for name in sorted(NAMES[notation] - {'%'}):
        unit = SHOWN.get(name, name)
        bases = SIZE[unit][0] if unit in SIZE else {unit: 1}
        found.setdefault(tuple(sorted(bases.items())), []).append(name)
    return found


ALIKE = {notation: alike(notation) for notation in NOTATIONS}
EXPONENTS = [Fraction(text) for text in '1 1 1 1 -1 -1 2 -2 3 17 -17 99 -99 1/2 1/2 -1/2 3/2 2/3 1/3 1/60 5/2'.split()]


def prefixed(random, notation, name):
    spelling = random.choice(PREFIX_NAMES) + name
    return spelling if random.random() < 0.5 and symbol(notation, spelling)[1:] == (True, name) else name


def convertible(random):
    """Two labels of the same dimensions; now and then an exponent is halved in one of them."""
    first, second = random.choice(NOTATIONS), random.choice(NOTATIONS)
    shared = sorted(ALIKE[first].keys() & ALIKE[second].keys())
    shared += [bases for bases in shared if len(ALIKE[first][bases]) > 1] * 4
    above, below = [], []
    for _ in range(random.choice([1, 1, 2, 2, 3, 5])):
        bases = random.choice(shared)
        exponent = random.choice([e for e in EXPONENTS if CDS not in (first, second) or e.denominator == 1])
        halves = [exponent / 2] * 2 if 60 % (exponent / 2).denominator == 0 and random.random() < 0.2 else [exponent]
        above.append((prefixed(random, first, random.choice(ALIKE[first][bases])), exponent))
        below += [(prefixed(random, second, random.choice(ALIKE[second][bases])), half) for half in halves]
    random.shuffle(below)
    powers = [random.choice([0, 0, 3, -22, 99]) if notation != STARLINK else 0 for notation in (first, second)]
    labels = written(first, powers[0], above), written(second, powers[1], below)
    return (first, labels[0], second, labels[1]) if None not in labels else convertible(random)


def unlike(random):
    first, second = random.choice(NOTATIONS), random.choice(NOTATIONS)
    return first, label(random, first), second, label(random, second)


def cases(seed, count, everything):
    random = Random(seed)
    pairs = every_pair()
    if not everything:
        pairs = random.sample(pairs, min(count // 4, len(pairs)))
    found = special() + both_ways(starlink_cases.converted()) + refused() + roots() + decimal_cases.converted()
    found += around_largest() + around_largest_power() + pairs
    others = count - count // 4
    return found + [convertible(random) if number % 4 else unlike(random) for number in range(others)]


def text(seed, count, everything):
    lines = ['%d %s %d %s\n' % (first, above.hex() or '-', second, below.hex() or '-')
             for first, above, second, below in cases(seed, count, everything)]
    return ''.join(lines).encode('ascii')
