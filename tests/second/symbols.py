"""Prefixes, known units and their sizes: document 01, "Symbols" and "Sizes and conversion", with the names of document 02, W3."""
import re
from fractions import Fraction

from .notations import CDS, FITS, NOTATIONS, OGIP, STARLINK, VOUNITS

PREFIXES = dict(da=1, h=2, k=3, M=6, G=9, T=12, P=15, E=18, Z=21, Y=24, d=-1, c=-2, m=-3, u=-6, n=-9, p=-12, f=-15, a=-18, z=-21, y=-24)
ALL = 'm g s A K mol cd rad sr Hz N Pa J W C V S F Wb T H lm lx min h d yr deg arcmin arcsec AU pc eV Jy barn mag byte'.split()
NOT_OGIP = 'a mas pix ct Ry solMass solLum solRad D Sun bit Ohm'.split()
NOT_CDS = 'erg G lyr count photon pixel chan bin voxel'.split()
FITS_AND_VOUNITS = 'u ph R adu beam Angstrom'.split()
NAMES = {
    FITS: set(ALL + NOT_OGIP + NOT_CDS + FITS_AND_VOUNITS),
    OGIP: set(ALL + NOT_CDS + ['angstrom', 'ohm']),
    CDS: set(ALL + NOT_OGIP + ['%']),
    VOUNITS: set(ALL + NOT_OGIP + NOT_CDS + FITS_AND_VOUNITS + ['angstrom']),
}
# "Known symbols are OGIP's, with Ang in place of angstrom"
NAMES[STARLINK] = NAMES[OGIP] - {'angstrom'} | {'Ang'}
assert tuple(NAMES) == NOTATIONS

# "One unit under two names", and "Ang is a third name of that unit": the first is the one that is shown
SEVERAL_NAMES = [names.split() for names in ('yr a', 'pixel pix', 'photon ph', 'count ct', 'ohm Ohm', 'angstrom Angstrom Ang')]
SHOWN = {other: first for first, *others in SEVERAL_NAMES for other in others}
WITH_PREFIX = set(ALL[:23]) | {'ohm', 'yr', 'pc', 'eV', 'Jy', 'bit', 'byte'}


def symbol(notation, spelling):
    """The prefix, whether the unit is known, and the unit."""
    names = NAMES[notation]
    if spelling in names:
        return '', True, spelling
    cuts = [(p, spelling[len(p):]) for p in PREFIXES if spelling.startswith(p) and len(spelling) > len(p)]
    known = [cut for cut in cuts if cut[1] in names and cut[1] != '%']
    assert len(known) <= 1, (notation, spelling, known)
    if known:
        return known[0][0], True, known[0][1]
    if cuts:
        prefix, rest = max(cuts, key=lambda cut: len(cut[0]))
        return prefix, False, rest
    return '', False, spelling


def is_lawful(notation, name, prefix):
    return not prefix or name in WITH_PREFIX or (name == 'arcsec' and notation in (CDS, VOUNITS))


# SIZES: numbers and powers of bases; every other unit is a base of its own

SIZES = '''Hz s-1; N 10+3 g m s-2; Pa 10+3 g m-1 s-2; J 10+3 g m2 s-2; W 10+3 g m2 s-3; C A s; V 10+3 g m2 s-3 A-1;
S 10-3 g-1 m-2 s3 A2; F 10-3 g-1 m-2 s4 A2; Wb 10+3 g m2 s-2 A-1; T 10+3 g s-2 A-1; H 10+3 g m2 s-2 A-2; ohm 10+3 g m2 s-3 A-2;
lm cd sr; lx cd sr m-2; min 60 s; h 3600 s; d 86400 s; yr 31557600 s; arcmin 60 arcsec; deg 3600 arcsec; mas 1/1000 arcsec;
Jy 10-23 g s-2; erg 10-4 g m2 s-2; G 10-1 g s-2 A-1; angstrom 10-10 m; barn 10-28 m2; byte 8 bit; % 10-2'''
PRIMES = (2, 3, 5, 487)


def prime_exponents(number):
    exponents = []
    for prime in PRIMES:
        exponents.append(0)
        while number % prime == 0:
            number //= prime
            exponents[-1] += 1
    assert number == 1
    return exponents


def size(words):
    dimensions, scale = {}, [0, 0, 0, 0]
    for word in words:
        if re.fullmatch(r'10[+-]\d+', word):
            scale = [n + int(word[2:]) * one for n, one in zip(scale, (1, 0, 1, 0))]
        elif re.fullmatch(r'\d+(/\d+)?', word):
            number = Fraction(word)
            above, below = prime_exponents(number.numerator), prime_exponents(number.denominator)
            scale = [n + a - b for n, a, b in zip(scale, above, below)]
        else:
            base, power = re.fullmatch(r'([a-zA-Z]+)(-?\d+)?', word).groups()
            dimensions[base] = int(power or 1)
    return dimensions, scale


SIZE = {entry.split()[0]: size(entry.split()[1:]) for entry in SIZES.replace('\n', ' ').split(';')}


def spellings(notation):
    """Every unit's name of any notation, and every name that this notation knows after each prefix; each spelling once."""
    everywhere = sorted(set().union(*NAMES.values()))
    prefixed = [prefix + name for name in sorted(NAMES[notation] - {'%'}) for prefix in PREFIXES]
    return list(dict.fromkeys(everywhere + prefixed))
