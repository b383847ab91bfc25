"""Input for the line program."""
from random import Random

from . import decimal_cases, starlink_cases
from .labels import label
from .lines import LARGEST_LINE, NAMED
from .notations import NOTATIONS, STARLINK
from .reading import read
from .rewrite_cases import into_all, of_length, special
from .symbols import NAMES as KNOWN

NAMES = sorted(NAMED)
NAME_OF = {number: name for name, number in NAMED.items()}
WRONG_NAMES = [b'', b'FITS', b'Cds', b'vounits', b'fits ', b' fits', b'cds\r', b'vou\0', b'fit', b'1', b'ogip\xff', b'fitsfits', b'Starlink',
               b'STARLINK', b'starlin', b'starlinks', b'starlink ', b' starlink', b'starlink\r', b'starlink\0', b'star', b'starling', b'5']
IDENTIFIERS = [b'', b'x', b't1', b'an id with spaces', b'\r', b'\0', b'\xc3\xa9', b'15', b'"quoted"', b'x' * 200]


def line(*fields):
    return b'\t'.join(fields)


def tabs():
    """0 to 5 tabs, with and without bytes between them."""
    return [b'\t' * number for number in range(6)] + [line(*[b'fits'] * fields) for fields in range(1, 7)]


def names():
    """Wrong names on either side, with labels that are accepted and refused: the source's name and label come first."""
    labels = (b'm', b'kg/m s', b'', b'm' * 256, b'\xff', b'm(1/7)', b'(' * 9 + b'm' + b')' * 9, b' '.join([b'm'] * 33))
    return [line(b'x', source, data, target) for data in labels for wrong in WRONG_NAMES
            for source, target in ((wrong, b'fits'), (b'fits', wrong), (wrong, wrong), (wrong, b'starlink'), (b'starlink', wrong))]


def bytes_inside():
    """Carriage returns, NUL and other bytes in each field."""
    odd = (b'\r', b'\0', b'\x7f', b'\x80', b'\xc3\xa9', b'\v', b'\f', b' ')
    return [line(*fields[:place], before + fields[place] + after, *fields[place + 1:])
            for fields in ((b'x', b'fits', b'm', b'cds'), (b'x', b'starlink', b'm', b'starlink'))
            for place in range(4) for sign in odd for before, after in ((sign, b''), (b'', sign))]


def lengths():
    """Lines of 510 to 514 bytes and far longer: filled up in the id, in the label and in the target's name."""
    found = []
    for length in (510, 511, 512, 513, 514, 1024, 5000, 70000):
        for fields in ((b'', b'fits', b'm', b'cds'), (b'', b'foo', b'm', b'cds'), (b'', b'fits', b'm(', b'cds'), (b'', b'starlink', b'Ang', b'vou')):
            found.append(b'i' * (length - len(line(*fields))) + line(*fields))
        found.append(line(b'x', b'fits', b'm' * (length - len(line(b'x', b'fits', b'', b'cds'))), b'cds'))
        found.append(line(b'x', b'fits', b'm', b'c' * (length - len(line(b'x', b'fits', b'm', b'')))))
        found += [b'i' * length, b'\t' * length]
    assert any(len(data) == LARGEST_LINE for data in found)
    return found


def labels():
    """The labels that document 01 or its decisions name, and those with Ang or a factor, into every notation."""
    return [line(b's', NAME_OF[source], data, NAME_OF[target]) for source, data, target, _ in special() + into_all(starlink_cases.rewritten())]


def decimals():
    """Decimals and what looks like one: in the notation's own forms into FITS and CDS, in others' into the notation itself."""
    found = [(source, data, target) for source, data in decimal_cases.own() for target in (b'fits', b'cds')]
    found += [(source, data, NAME_OF[source]) for source, data in decimal_cases.foreign()]
    return [line(b'd', NAME_OF[source], data, target) for source, data, target in found]


def starlink():
    """Starlink's edges into OGIP and into Starlink itself; but a newline would end the line."""
    return [line(b'l', b'starlink', data, target) for _, data in starlink_cases.labels() if b'\n' not in data for target in (b'ogip', b'starlink')]


def stored():
    """The lines of vectors/starlink.in: from Starlink into each other notation and from each into Starlink, every name that the source knows,
    bare and after kilo, names of the angstrom, quoted names and factors; and the accepted edges of Starlink into each."""
    pairs = [pair for other in NOTATIONS[:-1] for pair in ((STARLINK, other), (other, STARLINK))]
    found = [(source, (prefix + name).encode('ascii'), target) for source, target in pairs for name in sorted(KNOWN[source]) for prefix in ('', 'k')]
    found += [(source, data, target) for source, target in pairs for notation, data in starlink_cases.rewritten() if notation == source]
    found += [(STARLINK, data, target) for data in starlink_cases.TELLING if read(STARLINK, data).number == 0 for target in NOTATIONS[:-1]]
    return b''.join(line(b'%d' % place, NAME_OF[source], data, NAME_OF[target]) + b'\n' for place, (source, data, target) in enumerate(dict.fromkeys(found), 1))


def results():
    """Results of 254 to 257 bytes in every pair of notations."""
    return [line(b'r', NAME_OF[source], of_length(source, target, length), NAME_OF[target])
            for source in NOTATIONS for target in NOTATIONS for length in (254, 255, 256, 257)]


def random_line(random):
    source = random.choice(NAMES)
    data = label(random, NAMED[source])
    name = source if random.random() < 0.95 else random.choice(WRONG_NAMES)
    target = random.choice(NAMES) if random.random() < 0.95 else random.choice(WRONG_NAMES)
    made = line(random.choice(IDENTIFIERS), name, data, target)
    return made if random.random() < 0.97 else made.replace(b'\t', random.choice([b'', b' ', b'\t\t']), 1)


def text(seed, count, everything):
    """The last line has no newline."""
    random = Random(seed)
    found = [b'', b'\r'] + tabs() + names() + bytes_inside() + lengths() + labels() + decimals() + starlink() + results() + [b'', b'']
    found += [random_line(random) for _ in range(count)] + [line(b'last', b'fits', b'km', b'vou')]
    return b'\n'.join(found)
