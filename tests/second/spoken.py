"""Labels whose words are stored: the lines of vectors/words.tsv."""
from .notations import CDS, FITS, NOTATIONS, OGIP, STARLINK, VOUNITS
from .speaking import PREFIX_WORD, UNIT_WORD, speak
from .symbols import NAMES, symbol

# No label has more bytes of words: word_cases.py has one with as many.
ROOM = 1476

# P1 to P12 of document 01 without P3 and P11, which are refused; P1 is in every notation, and P12 has two labels
SAMPLES = [(notation, '') for notation in NOTATIONS]
SAMPLES += [(CDS, 'kg/m.s'), (VOUNITS, 'kg/(m.s)'), (FITS, 'Pa'), (VOUNITS, 'furlong'), (CDS, 'pixel'), (OGIP, 'ph'), (CDS, 'da'), (VOUNITS, "'m'"),
            (CDS, 'km/h'), (CDS, 'm/s')]
TEXTBOOKS = [
    (FITS, 'm s-1'), (FITS, 'kg m-3'), (FITS, 'J kg-1 K-1'), (FITS, 'N m2 kg-2'), (FITS, 'W m-2 Hz-1'), (FITS, '10**(-26) W m-2 Hz-1'),
    (FITS, 'Jy/beam'), (FITS, 'km s-1 Mpc-1'), (FITS, 'V Hz(-1/2)'), (FITS, 'adu pix-1'),
    (OGIP, 'erg/cm**2/s'), (OGIP, 'photon/(cm**2 s keV)'), (OGIP, 'J/(mol K)'), (OGIP, 'ohm m'), (OGIP, '10**(-8) W / m**2 / K**4'),
    (OGIP, 'count/s/arcmin**2'), (OGIP, 'm**(3/2)'),
    (CDS, 'm3/kg/s2'), (CDS, 'cd/m2'), (CDS, '10-7solMass/a'), (CDS, 'mas/yr'), (CDS, '10+4K'), (CDS, 'C/mol'), (CDS, '%/Myr'),
    (CDS, 'g.cm/s2'), (CDS, 'mW/m2/sr'),
    (VOUNITS, 'J.s'), (VOUNITS, 'W.m**-2.K**-4'), (VOUNITS, '10**-7N/A**2'), (VOUNITS, '1000byte/s'), (VOUNITS, 'mol/m**3'),
    (VOUNITS, 'lm/W'), (VOUNITS, "furlong/'fortnight'"), (VOUNITS, 'V/(Hz**(1/2))'), (VOUNITS, '100Angstrom.s**(-1.5)'),
    (STARLINK, 'J/(m**2*Ang*count)'), (STARLINK, 'erg/(s*cm**2*Ang)'), (STARLINK, 'km*s**(-1)'), (STARLINK, 'V/Hz**(1/2)'), (STARLINK, 'nAng'),
]


def prefixes():
    """Every prefix once, with the metre."""
    assert all(symbol(FITS, prefix + 'm') == (prefix, True, 'm') for prefix in PREFIX_WORD)
    return [(FITS, prefix + 'm') for prefix in PREFIX_WORD]


def units():
    """Every unit by each of its names, each name in the first notation that knows it."""
    return [(min(notation for notation in NOTATIONS if name in NAMES[notation]), name) for name in UNIT_WORD]


def labels():
    return [(notation, text.encode('ascii')) for notation, text in prefixes() + units() + TEXTBOOKS + SAMPLES]


def line(notation, data):
    number, result = speak(notation, data, ROOM)
    assert number == 0, (notation, data, number)
    return '%d\t%s\t%s\n' % (notation, data.hex() or '-', result.decode('ascii'))


def text():
    return ''.join(line(notation, data) for notation, data in labels()).encode('ascii')
