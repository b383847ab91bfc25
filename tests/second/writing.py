"""Rewriting a label in a notation: document 01, "Writing", document 02, "The Starlink notation", and refusals 12 to 14."""
from .notations import CDS, FITS, NOTATIONS, OGIP, STARLINK, VOUNITS
from .reading import read, unit
from .symbols import NAMES, SEVERAL_NAMES, SHOWN, symbol

# "Joined by a space (FITS, OGIP) or a point." "Writing joins by a star".
JOIN = {FITS: ' ', OGIP: ' ', CDS: '.', VOUNITS: '.', STARLINK: '*'}
NAMES_OF = {name: names for names in SEVERAL_NAMES for name in names}


def written_factor(target, k):
    """"k not 0: `10**k` and a space (FITS, OGIP), `10**k` (VOUnits), `10+3` or `10-3` style (CDS)". "No plus but in the CDS factor".

    None where there is no form: "a label with k not 0 can't be written in notation 5"."""
    if k == 0:
        return ''
    if target == STARLINK:
        return None
    if target == CDS:
        return '10%+d' % k
    return '10**%d' % k + (' ' if target in (FITS, OGIP) else '')


def written_exponent(target, exponent):
    """None where there is no form."""
    # "Exponent 1 is omitted."
    if exponent == 1:
        return ''
    # "Whole: m-2 (FITS, CDS), `m**-2` (VOUnits), `m**2` and `m**(-2)` (OGIP)." Starlink: "with exponents as in OGIP".
    if exponent.denominator == 1:
        if target in (FITS, CDS):
            return '%d' % exponent
        if target in (OGIP, STARLINK) and exponent < 0:
            return '**(%d)' % exponent
        return '**%d' % exponent
    # "Fraction p/q: m(p/q) (FITS), `m**(p/q)` (OGIP, VOUnits), none in CDS."
    fraction = '(%d/%d)' % (exponent.numerator, exponent.denominator)
    return {FITS: fraction, CDS: None}.get(target, '**' + fraction)


def written_known(target, term):
    # "A known unit keeps its spelling if the target knows it, else takes its other name there": of three names the first that it knows.
    name = next((name for name in [term.name] + NAMES_OF.get(term.name, []) if name in NAMES[target]), None)
    if name is None:
        return None
    # "Prefix and name must read in the target as the same prefix and unit."
    prefix, known, there = symbol(target, term.prefix + name)
    same = known and prefix == term.prefix and SHOWN.get(there, there) == unit(term)
    return term.prefix + name if same else None


def written_unknown(target, term):
    # "An unknown unit is written plainly if the target reads that as an unknown unit with the same prefix and letters,"
    if symbol(target, term.prefix + term.name) == (term.prefix, False, term.name):
        return term.prefix + term.name
    # "else quoted in VOUnits. Otherwise 12."
    return "%s'%s'" % (term.prefix, term.name) if target == VOUNITS else None


def written_term(target, term):
    """None where there is no form."""
    spelling = written_known(target, term) if term.known else written_unknown(target, term)
    exponent = written_exponent(target, term.exponent)
    return None if spelling is None or exponent is None else spelling + exponent


def rewrite(source, data, target, size):
    """The number and the result's bytes. "Rewriting checks 1 to 7 on the source, then 1 for the target, then 12 to 14." """
    reading = read(source, data)
    if reading.number:
        return reading.number, b''
    if target not in NOTATIONS:
        return 1, b''
    factor, terms = written_factor(target, reading.k), [written_term(target, term) for term in reading.terms]
    if factor is None or None in terms:
        return 12, b''
    result = (factor + JOIN[target].join(terms)).encode('ascii')
    if len(result) > 255:
        return 13, b''
    if size < len(result):
        return 14, b''
    return 0, result


def content(reading):
    """What a label and its rewriting have in common: k, and each term's prefix, unit and exponent."""
    return reading.k, [(term.prefix, term.known, unit(term) if term.known else term.name, term.exponent) for term in reading.terms]


def reads_back(source, data, target, result):
    """Whether the result is accepted in the target with the same content."""
    return read(target, result).number == 0 and content(read(target, result)) == content(read(source, data))
