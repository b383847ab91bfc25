"""Labels at the edges of the Starlink notation: document 02, "The Starlink notation". All kinds of cases have them, and vectors/starlink.tsv
has some."""
from .notations import CDS, FITS, NOTATIONS, OGIP, STARLINK, VOUNITS

# "product by a star without spaces", and joints of other notations
PRODUCTS = 'm m*s m*s*kg m*m m* *m m**s m***s m.s m..s m,s m-s m+s m*s.kg m. .m * ** .'.split()
# "at most one slash in the whole, those inside powers not counted, followed by one unit or group that ends the label"; "A slash can't lead"
SLASHES = '''J/(m**2*Ang*count) m/s m*kg/s m*kg/s**2 m*kg/s**-2 m/s*kg m/s/kg m*s/kg/K m/s**2/kg / /m /(m) /m*s (/m) m*(/s) m/ m//s m*/s m/*s
m/(s) m/(s*kg) m/(s*kg)*K m/(s*kg)/K m/(s*kg)(K) m/(s*kg)K m/s(kg) m/(s/kg) (m/s) (m/s)*kg (m/s)/kg m*(s/kg) m/(kg*(s/K)) m/((s/kg)) m/(s*kg
m/s*kg) m/() m/1 m**(1/2) m**(1/2)*s m**(1/2)/s m/s**(1/2) m**(1/2)/s**(1/2) m**(1/2)/s**(1/2)/kg m/s**(1/2)*kg m/(s**(1/2)*kg**(1/2))
m**(1/2)/(s**(1/2)*kg**(-1/2)) (m**(1/2)) (m**(1/2)/s) (m**(1/2))/s /m**(1/2) m**1/2 m**1/s m**(1/s) m**(1/2/3)'''.split()
# "a group holding a product without a slash"
GROUPS = '''(m) (m*s) ((m)) ((m*s)) ((m)*s) (m*(s)) (m)*s m*(s) (m)*(s) (m)/s (m)/(s) (m*s)/kg (m*s)/(kg*K) m*(s*kg)/K m/((s)) m/((s*kg)*K)
m/(s*(kg*(K*mol))) m/(s*(kg*(K**2*mol**-1))) (((m)*(s))*kg)/((K)*(mol)) () ()*m m*() (()) (*m) (m*) (m)(s) m(s) (m)s (m m) )m( (m)) ((m) (m.s)
(m)**2 (m*s)**2 (m)**(1/2) (m)2 (m)^2 m/(s)**2 (m**2) (m**2*s) [m]'''.split()
# "exponent ** and a power", and exponents of other notations
EXPONENTS = '''m**2 m**-2 m**+2 m**(2) m**(-2) m**(+2) m**(-1/2) m**(+1/2) m**(2/4) m**(2/2) m**(4/2) m**1 m**(1) m**-1 m/s**-1 m**(0.5) m**(-0.5)
m**(+0.25) m**(1.5) m**(1.0) m**(1.50) m**0.5 m**1.5 m**(.5) m**(1.) m**(00.5) m**2*s m**2*s**3 m**2**3 m**(2)**3 m**(2)(3) m**2s m**2(s) m**2.s
m** m**() m**+ m**- m**--2 m**+-2 m**(2 m**2) m**((2)) m**((1/2)) m**-(2) m*2 m***2 m**(s) m**0 m**-0 m**(0) m**02 m**(02) m**(0/2) m**(1/0)
m**(1/02) m**(1/-2) m**(1/+2) m**(1/2.0) m**(1.0/2) m2 m-2 m+2 m(2) m(1/2) m^2 m^-2 m^(1/2) 2m **2'''.split()
# "no factor"
FACTORS = '''1 10 100 10**3 1m 1*m 10m 10*m 100m 100*m 10**3m 10**3*m 10**-3*m 10**(3)*m 10**(-3)m 10+3m 10+3*m 10^3m 10^3*m (10**3)*m (10)*m m*10
m*10**3 m/10 m/10**3 1/m 2*m 0.1*m 1000'''.split()
# Spaces anywhere
SPACED = ['m* s', 'm *s', 'm * s', 'm s', 'm  s', 'm*s kg', ' ', ' m', 'm ', 'm /s', 'm/ s', 'm / s', '(m s)', '(m *s)', '( m)', '(m )', 'm**( 2)',
          'm**(2 )', 'm** 2', 'm **2', 'm ** 2', 'm* *2', 'm**2 s', '1 m', '10 m', '100 m', '10**3 m', '10-3 m', '10**3 m/s', 'J/(m**2 Ang count)']
# Letters only: percent, quotes and other signs
SIGNS = '''% %*m m*% %**2 k% 'm' k'm' 'furlong' m*'q' \'\' m' m_s m~s m# $ m\\s "m" m! - + 0 m0 log(m) sqrt(m)'''.split()
# "Known symbols are OGIP's, with Ang in place of angstrom"
ANGSTROMS = '''Ang angstrom Angstrom ang ANG Angs aAng kAng mAng dAng daAng aangstrom dangstrom daangstrom kangstrom mAngstrom kAngstrom Ang**2
Ang**(-1/2) m*Ang Ang/s s/kAng'''.split()
# Names of two notations or more, and names that only others know
NAMES = '''count ct photon ph pixel pix ohm Ohm kohm kOhm yr a da mas marcsec karcsec solMass solLum solRad Ry D Sun bit byte kbit Mbyte u R adu beam
erg G lyr chan bin voxel mag barn Mbarn kmin Pa cd min mol dadu furlong unknown dam mm h dd q qq'''.split()
# Bytes that no label has: 2 comes before 3, and 3 before 4
BYTES = [b'\x00', b'\x1f', b'\x7f', b'\x80', b'\xff', b'm*\ts', b'm\n', b'm/\x7f', b'\xc3\x85', b'm*' * 127 + b'\x80', b'm*' * 127 + b'm\x80']
POWERS = '''99 -99 +99 100 -100 999 9999 10000 -10000 (99) (-99) (100) (99/1) (99/60) (5939/60) (5940/60) (5941/60) (-5941/60) (1/60) (1/61) (1/7)
(-1/7) (7/7) (14/7) (2/14) (1/8) (1/120) (2/120) (9999/9999) (9999/101) (10000/10000) (10000/1) (1/9999) (1/10000) (99.0) (99.5) (98.95) (99.0001)
(100.0) (0.05) (0.125) (0.0) (-0.0) (0.0000) (1.0000) (1.00000) (0.3333) (0.50000) (10000.0)'''.split()


def in_groups(depth, text):
    return '(' * depth + text + ')' * depth


def product(count, unit='m'):
    return '*'.join([unit] * count)


def lengths():
    """At and above 255 bytes: 2 comes before 4."""
    return ['q' * 255, 'q' * 256, 'Ang*' + 'q' * 251, 'Ang*' + 'q' * 252, 'q' * 253 + '/m', 'q' * 254 + '/m', 'm**(0.' + '5' * 248 + ')',
            'm**(0.' + '5' * 249 + ')', '(' * 255, '(' * 256, '/' * 255, '/' * 256]


def terms():
    """At and above 32 terms, on either side of a slash and in groups; 32 of as many bytes as fit."""
    found = [product(count) for count in (31, 32, 33)] + [in_groups(1, product(count)) for count in (32, 33)]
    found += [product(above) + '/(' + product(below, 's') + ')' for above, below in ((1, 31), (1, 32), (16, 16), (16, 17), (31, 1), (32, 1))]
    return found + [product(32, 'm' * 7), product(31, 'm' * 7) + '*' + 's' * 8]


def brackets():
    """At and above 8 open brackets, those of groups and of powers alike, on either side of a slash; those one after another are not open at
    once."""
    found = [in_groups(depth, 'm') for depth in (7, 8, 9)]
    found += [in_groups(depth, 'm**' + power) for depth in (7, 8) for power in ('2', '(2)', '(1/2)', '(0.5)')]
    found += ['s/' + text for text in found] + [in_groups(8, 'm') + '/' + in_groups(8, 's'), product(9, '(m)'), product(9, '(m**(2))')]
    return found + ['(' * 9 + 'm' + ')' * 8, '(' * 8 + 'm' + ')' * 9, in_groups(9, ''), in_groups(9, 'm/s')]


def orders():
    """4 before 5 before 6 before 7."""
    return ['m**100*', 'm**100/s/s', '/m**100', 'm/s/kg**100', 'm**(1/7)/(s/kg)', '10**100*m', product(33) + '*', product(33) + '/s/s', 'm*s/kg**100',
            in_groups(9, 'm**100'), in_groups(8, 'm**(1/7)'), product(33) + '**100', in_groups(9, product(33)), in_groups(9, product(33) + '**100'),
            product(33) + '/' + in_groups(9, 's')]


def encoded(texts):
    return [text.encode('ascii') for text in dict.fromkeys(texts)]


# The texts of which notations differ in what they say, and those of limits, bytes and names, which are the same rules in each
TELLING = encoded([''] + SLASHES + PRODUCTS + GROUPS + EXPONENTS + FACTORS + SPACED + SIGNS + ANGSTROMS)
OTHERS = encoded(NAMES + lengths() + terms() + brackets() + ['m**' + power for power in POWERS] + orders()) + BYTES


def labels():
    """Every text in Starlink."""
    return [(STARLINK, data) for data in TELLING + OTHERS]


def everywhere():
    """Every text in every notation."""
    return [(notation, data) for data in TELLING + OTHERS for notation in NOTATIONS]


def stored():
    """The labels of vectors/starlink.tsv: the telling texts in every notation, the others in Starlink, and two numbers that are no notation's."""
    found = [(notation, data) for data in TELLING for notation in NOTATIONS] + [(STARLINK, data) for data in OTHERS]
    return found + [(notation, data) for notation in (0, 6) for data in (b'', b'm', b'm/', b'q' * 256)]


# For rewriting: quoted names, and factors, of which those with k = 0 can be written: "a label with k not 0 can't be written in notation 5"
QUOTED = """'Ang' k'Ang' 'kAng' 'angstrom' a'ngstrom' 'Angstrom' k'Angstrom' 'ang' 'count' 'ct' c't' 'ph' p'h' 'ohm' 'Ohm' k'ohm' 'q' k'q' 'kq' da'q'
d'aq' 'furlong' f'urlong' 'u' 'mas' m'as'""".split()
WITH_FACTOR = {
    FITS: ['10+3m', '10-3 Angstrom', '10**99m', '10^(-99) m', '10+1kg/(m.s)', '10+3q'],
    OGIP: ['10**3m', '10 m', '100angstrom', '10**(-99)/m', '10q', '1m', '1 m', '1/m', '1 angstrom/s', '1(m s)'],
    CDS: ['10+3m', '10-99/m', '10m', '10+3%', '10+3pix/h', '1m', '1/m', '1(m.s)', '1%', '1pix'],
    VOUNITS: ['10**3m', '10**(-3)Angstrom', '100m', "10'm'", "10'q'", '1m', '1angstrom', '1(m.s)/kg', "1'm'", "1'q'"],
}


def rewritten():
    """Pairs of a notation and a label: each name of the angstrom and what is nearly one; quoted names; factors."""
    found = [(notation, text) for notation in NOTATIONS for text in ANGSTROMS] + [(VOUNITS, text) for text in QUOTED]
    found += [(notation, text) for notation, texts in WITH_FACTOR.items() for text in texts]
    return [(notation, text.encode('ascii')) for notation, text in dict.fromkeys(found)]


# For conversions: two labels, the first in Starlink
CONVERTED = [
    ('Ang', FITS, 'Angstrom'), ('Ang', OGIP, 'angstrom'), ('Ang', VOUNITS, 'angstrom'), ('Ang', VOUNITS, 'Angstrom'), ('Ang', STARLINK, 'Ang'),
    ('Ang', CDS, 'nm'), ('kAng', CDS, 'm'), ('Ang**(1/2)', OGIP, 'angstrom**(0.5)'), ('Ang**(1/2)', FITS, 'm(1/2)'), ('Ang**(1/3)', FITS, 'm(1/3)'),
    ('J/(m**2*Ang*count)', FITS, 'J m-3 ct-1'), ('J/(m**2*Ang*count)', OGIP, 'J/m**2/angstrom'), ('J/(m**2*Ang*count)', CDS, '10+10J/m3/ct'),
    ('J/(m**2*Ang*count)', VOUNITS, 'erg.cm**-2.angstrom**-1.ct**-1'), ('J/(m**2*Ang*count)', STARLINK, 'erg*Ang**(-3)/count'),
    # one unit under several names, and spellings that are other units elsewhere
    ('ohm', FITS, 'Ohm'), ('count', CDS, 'ct'), ('photon', VOUNITS, 'ph'), ('pixel', CDS, 'pix'), ('yr', CDS, 'a'), ('Angstrom', FITS, 'Angstrom'),
    ('angstrom', OGIP, 'angstrom'), ('Ang', OGIP, 'Ang'), ('Ang', FITS, 'Ang'), ('Ang', VOUNITS, "'Ang'"), ('a', CDS, 'a'), ('mas', CDS, 'mas'),
    ('ph', FITS, 'ph'), ('deg', CDS, 'mas'), ('deg', OGIP, 'rad'), ('km/h', CDS, 'm/s'),
    # no terms, and terms that cancel
    ('', STARLINK, ''), ('', CDS, '%'), ('m*s', STARLINK, 's*m'), ('m/(s*m)', FITS, 's-1'), ('m/m', CDS, '%'), ('m/m', OGIP, ''),
    ('q/q', STARLINK, ''),
    # the bounds of 10 and 11
    ('m**99', FITS, 'km99'), ('yr**5', CDS, 'd5'), ('yr**6', CDS, 'd6'), ('h**(1/2)', OGIP, 's**(1/2)'), ('min**(1/2)', OGIP, 's**(1/2)'),
    # refusals of either label
    ('m/s/kg', FITS, 'm'), ('/m', OGIP, '/m'), ('10**3*m', OGIP, '10**3*m'), ('m**100', FITS, 'm100'), ('Ang', 6, 'Ang'), ('m(', 6, 'm'),
    (in_groups(9, 'm'), FITS, 'm('), (product(33), CDS, 'm('), ('q' * 256, 6, 'm'),
]


def converted():
    return [(STARLINK, above.encode('ascii'), second, below.encode('ascii')) for above, second, below in CONVERTED]
