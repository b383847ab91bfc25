"""Labels with decimals and with what looks like one: document 02, "Half powers written as decimals". All kinds of cases have them, and
vectors/decimals.tsv has some."""
from .notations import CDS, FITS, OGIP, STARLINK, VOUNITS

ACCEPTED = '0.5 -0.5 +0.5 0.25 +0.25 -0.75 0.05 0.0500 0.1 0.3 0.20 1.0 1.5 9.5 10.05 99.0'
# in the grammar, but all digits are 0, or there are five, or the denominator doesn't divide 60, or the size is above 99
OUT_OF_BOUNDS = '0.0 -0.0 +0.0 0.00 +0.000 0.0000 0.00000 0.12345 0.50000 0.125 0.6667 99.5'
NO_DECIMALS = '00.5 -00.5 00.0 0. -0. 1. . .5 -.5 +.5 0 -0 +0 0/2 1/0 0.5/2 1/0.5 0.5.5 0.0.5 0..5 +-0.5 --0.5 0.-5 0,5 0.5e1'
TEXTS = ' '.join((ACCEPTED, OUT_OF_BOUNDS, NO_DECIMALS)).split() + [' 0.5', '0. 5', '- 0.5']
SOME = '0.5 -0.75 1.5 0.0 00.5 .5 0'.split()

# All forms of an exponent, and each notation's own, one that has decimals first
FORMS = '(%s) **(%s) ^(%s) %s **%s ^%s'.split()
OWN = {FITS: FORMS, OGIP: ['**(%s)', '**%s'], CDS: ['%s'], VOUNITS: ['**(%s)', '**%s'], STARLINK: ['**(%s)', '**%s']}
# The notations that have decimals, and what joins units there
WITH_DECIMALS = {FITS: ' ', OGIP: '*', VOUNITS: '.', STARLINK: '*'}

# Below a slash, which turns the sign; beside other units, groups and exponents; and in a factor, which has no decimals
INSIDE = {
    FITS: 'kg/(m**(0.5).s) kg/(m(-0.5).s(+0.25)*K^(0.75)) /Hz(0.5) /(m(0.5)) kg/m^(-0.05) kg/((m(0.5)).s(0.5)) kg/(m(0.0).s) m(0.5).m(1/2)'
          ' m(0.5)s m(0.5)(0.5) (m)(0.5) m(0.0)/( 10**(-3)Hz(0.5) 10**(0.5)m 10^0.5m 10+0.5m 10**(0.0)m 0.5m (0.5) 0.5',
    OGIP: 'kg/(m**(0.5)*s) kg/(m**(-0.5)*s**(+0.25)/K**(0.75)) /Hz**(0.5) /(/m**(0.5)) kg/m**(-0.05)/s**(0.05) kg/((m**(0.5))/s**(0.5))'
          ' kg/(m**(0.0)*s) m**(0.5)*m**(1/2) m**(0.5)s m**(0.5)**(0.5) (m)**(0.5) m**(0.0)/ 10**(-3)Hz**(0.5) 10**(0.5)m 10**0.5m 10**(0.0)m'
          ' 0.5m 1.0m (0.5) 0.5',
    CDS: 'kg/(m0.5.s) kg/(m**(0.5).s) kg/(m(0.5).s) m0.s m1.s 10+0.5m 10**0.5m 10**(0.5)m 0.5m 1.0m %0.5 (0.5) 0.5',
    VOUNITS: "kg/(m**(0.5).s) kg/(m**(-0.5).s**(+0.25)/K**(0.75)) kg/Hz**(0.5) kg/(s/m**(0.5)) kg/m**(-0.05) kg/((m**(0.5)).s**(0.5))"
             " kg/(m**(0.0).s) m**(0.5).m**(1/2) m**(0.5)s m**(0.5)**(0.5) (m)**(0.5) m**(0.0)/ k'm'**(-0.75) 10**(-3)Hz**(0.5) 10**(0.5)m"
             " 10**0.5m 10**(0.0)m 0.5m 1.0m (0.5) 0.5",
    STARLINK: 'kg/(m**(0.5)*s) kg/(m**(-0.5)*s**(+0.25)*K**(0.75)) kg/Hz**(0.5) kg/(s/m**(0.5)) kg/m**(-0.05) kg/((m**(0.5))*s**(0.5))'
              ' kg/(m**(0.0)*s) m**(0.5)*m**(1/2) m**(0.5)/s**(0.5) m**(0.5)/s/kg**(0.5) m**(0.5)s m**(0.5)**(0.5) (m)**(0.5) m**(0.0)/ /m**(0.0)'
              ' 10**(0.5)*m 10**0.5*m 10**(0.0)*m 0.5*m 0.5m 1.0*m (0.5) 0.5',
}

# For conversions: two units, and an exponent of each
UNITS = 'Hz Hz, km m, Tm m, Pm m, h s, q q'
EXPONENTS = ('0.5 1/2, -0.5 -1/2, +0.5 2/4, +0.25 1/4, -0.75 -3/4, 0.05 1/20, 0.0500 0.05, 0.1 1/10, 0.3 3/10, 0.20 1/5, 0.5 0.5, 0.5 -0.5, 0.5 1/3,'
             ' 0.5 1.5, 1.0 1, 1.5 3/2, 10.05 201/20, 0.0 1, 0.0 0.0, 0.125 1/8, 0.5 0.50000, 0.5 .5, 0.0 00.5, 00.5 0.0')


def encoded(labels):
    return [(notation, text.encode('ascii')) for notation, text in dict.fromkeys(labels)]


def metres(notation, forms, texts):
    return [(notation, 'm' + form % text) for form in forms for text in texts]


def inside(notation):
    return [(notation, text) for text in INSIDE[notation].split()]


def power(notation, unit, text):
    return unit + OWN[notation][0] % text


def limits(notation):
    """At and above 8 brackets, 32 terms and 255 bytes: 5 comes before 6 and 7. The result of 28 or 32 decimals can be too long."""
    join = WITH_DECIMALS[notation]
    half, zero = power(notation, 'm', '0.5'), power(notation, 'm', '0.0')
    found = ['(' * groups + inner + ')' * groups for groups in (7, 8) for inner in (half, zero)]
    found += [join.join(['m'] * terms + [last]) for terms in (31, 32) for last in (half, zero)]
    found += [join.join([half] * terms) for terms in (28, 32)]
    found += [power(notation, 'm', '0.' + '5' * (length - len(power(notation, 'm', '0.')))) for length in (255, 256)]
    return [(notation, text) for text in found]


def own():
    """Labels in a notation's own forms."""
    found = [label for notation in OWN for label in metres(notation, OWN[notation], TEXTS) + inside(notation)]
    return encoded(found + [label for notation in WITH_DECIMALS for label in limits(notation)])


def foreign():
    """Labels in other notations' forms."""
    return encoded(label for notation in OWN for label in metres(notation, [form for form in FORMS if form not in OWN[notation]], TEXTS))


def halves():
    """A half alone, and decimals below a slash."""
    return encoded(label for notation in WITH_DECIMALS for label in [(notation, power(notation, 'Hz', '0.5'))] + inside(notation)[1:2])


def stored():
    """The labels of vectors/decimals.tsv."""
    found = []
    for notation in OWN:
        found += metres(notation, OWN[notation][:1], TEXTS if notation in WITH_DECIMALS else SOME)
        found += metres(notation, OWN[notation][1:], SOME) + inside(notation)
    return encoded(found)


def parted(pairs):
    return [pair.split() for pair in pairs.split(',')]


def converted():
    """A unit against the other, each with its exponent; and a unit in two parts against the other one, in CDS too."""
    found = []
    for first, join in WITH_DECIMALS.items():
        for unit, other in parted(UNITS):
            found += [(first, power(first, unit, decimal), second, power(second, other, number))
                      for second in WITH_DECIMALS for decimal, number in parted(EXPONENTS)]
            found += [(first, join.join([power(first, unit, '0.25'), power(first, unit, rest)]), second, other)
                      for rest in ('0.75', '3/4', '0.25') for second in OWN]
    return [(first, above.encode('ascii'), second, below.encode('ascii')) for first, above, second, below in found]
