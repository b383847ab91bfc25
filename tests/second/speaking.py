"""A label as words: document 02, "Labels as words", and refusal 14."""
import re

from .reading import read, unit
from .symbols import NAMES, PREFIXES, SHOWN

# "Each known unit and each prefix has one spoken name, an English one": symbols and the name; slashes part the symbols of one unit
SPOKEN_PREFIXES = '''da deca, h hecto, k kilo, M mega, G giga, T tera, P peta, E exa, Z zetta, Y yotta,
d deci, c centi, m milli, u micro, n nano, p pico, f femto, a atto, z zepto, y yocto'''
SPOKEN_UNITS = '''m metre, g gram, s second, A ampere, K kelvin, mol mole, cd candela, rad radian, sr steradian, Hz hertz, N newton, Pa pascal,
J joule, W watt, C coulomb, V volt, S siemens, F farad, Wb weber, T tesla, H henry, lm lumen, lx lux, min minute, h hour, d day, yr/a year,
deg degree, arcmin arcminute, arcsec arcsecond, AU astronomicalunit, pc parsec, eV electronvolt, Jy jansky, barn barn, mag magnitude, byte byte,
mas milliarcsecond, pix/pixel pixel, ct/count count, Ry rydberg, solMass solarmass, solLum solarluminosity, solRad solarradius, D debye,
Sun sun, bit bit, Ohm/ohm ohm, erg erg, G gauss, lyr lightyear, ph/photon photon, chan channel, bin bin, voxel voxel, u dalton, R rayleigh,
adu datanumber, beam beam, angstrom/Angstrom/Ang angstrom, % percent'''
RESERVED = 'unit end ten to the over minus'.split()


def entries(table):
    return [tuple(entry.split()) for entry in table.replace('\n', ' ').split(',')]


PREFIX_WORD = dict(entries(SPOKEN_PREFIXES))
UNIT_WORD = {symbol: word for symbols, word in entries(SPOKEN_UNITS) for symbol in symbols.split('/')}
WORDS = [word for _, word in entries(SPOKEN_PREFIXES) + entries(SPOKEN_UNITS)]


def check_words():
    """"All names differ, each is one word, of letters only, and none is "unit", "end", "ten", "to", "the", "over" or "minus"." """
    assert len(set(WORDS)) == len(WORDS), 'two spoken names are the same'
    assert all(re.fullmatch('[a-zA-Z]+', word) for word in WORDS), 'a spoken name is not a word of letters'
    assert not set(WORDS) & set(RESERVED), 'a spoken name is reserved'
    assert set(PREFIX_WORD) == set(PREFIXES) and set(UNIT_WORD) == set().union(*NAMES.values()), 'a prefix or unit has no spoken name'
    assert len(set(UNIT_WORD.values())) == len({SHOWN.get(symbol, symbol) for symbol in UNIT_WORD}), 'a unit has two spoken names'
    assert all(UNIT_WORD[symbol] == UNIT_WORD[other] for symbol, other in SHOWN.items()), 'symbols of one unit are spoken differently'


check_words()


def power_words(exponent):
    """"to the p" or "to the p over q", with "minus" before a negative p or k. "Numbers stay as digits"."""
    sign = ['minus'] if exponent < 0 else []
    below = ['over', str(exponent.denominator)] if exponent.denominator != 1 else []
    return ['to', 'the'] + sign + [str(abs(exponent.numerator))] + below


def term_words(term):
    """"its prefix name, its unit name, and for an exponent other than 1" the power."""
    prefix = [PREFIX_WORD[term.prefix]] if term.prefix else []
    # "An unknown unit is spoken as "unit", its letters one by one, and "end", parted by spaces."
    name = [UNIT_WORD[unit(term)]] if term.known else ['unit'] + list(term.name) + ['end']
    return prefix + name + (power_words(term.exponent) if term.exponent != 1 else [])


def words(reading):
    """The words of an accepted reading: ""ten to the k" if k isn't 0, then for each term" its words."""
    factor = ['ten'] + power_words(reading.k) if reading.k != 0 else []
    return factor + [word for term in reading.terms for word in term_words(term)]


def speak(notation, data, size):
    """The number and the bytes of the words, "parted by single spaces"."""
    reading = read(notation, data)
    if reading.number:
        return reading.number, b''
    result = ' '.join(words(reading)).encode('ascii')
    # "14 if the buffer is short; 13 isn't used here; after 1 to 7"
    return (14, b'') if size < len(result) else (0, result)
