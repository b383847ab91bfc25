"""Random labels: valid ones from the grammars' own rules, damaged ones and hostile ones."""
from .grammars import GRAMMARS
from .notations import CDS, FITS, OGIP, STARLINK, VOUNITS
from .symbols import NAMES, PREFIXES

LETTERS = 'abcdefghijklmnopqrstuvwxyzABCDEFGHIJKLMNOPQRSTUVWXYZ'
SIGNS = "0123456789.*/()^'%+- mskdaP"
NAMES_IN_ORDER = {notation: sorted(names - {'%'}) for notation, names in NAMES.items()}
ALL_NAMES = sorted(set().union(*NAMES_IN_ORDER.values()))
PREFIX_NAMES = list(PREFIXES)

# How often an alternative of a rule is taken; 1 where nothing is said. Most labels have a few units and little nesting.
WEIGHTS = {'whole': {0: 0.05}, 'item': {0: 6}, 'rest': {0: 3}, 'product': {0: 1.5}, 'signed': {1: 2}, 'nought': {0: 3, 2: 2},
           'bracketed': {1: 2}}
# What a class of characters gives, each text as often as it is listed
DIGITS = {'nonzero': list('111222333445566789'), 'more': [''] * 40 + list('0024') + ['', '00', '999', '0000'],
          'places': ['5', '0', '25', '50', '75', '5', '0000', '3', '00000', '05', '1', '125', '5000', '50000'],
          'zeros': [''] * 8 + ['0', '00', '000'] * 4 + ['0' * 99, '0' * 100]}
# The same, with powers that are nearly decimals
NEAR_DECIMALS = {**DIGITS, 'power': ['2', '-1', '(0.5)', '(-0.25)'] * 4 + '0.5 -0.5 0.0 1.5 (00.5) (-00.5) (0.) (-0.) (1.) (.5) (-.5) (+.5) (0) (-0)'
                 ' (0/2) (1/0) (0.5/2) (0.5.5) (0.0.5) (+-0.5) (0,5) (0.5e1)'.split()}


def spelling(random, notation):
    chance = random.random()
    if chance < 0.15:
        return ''.join(random.choice(LETTERS) for _ in range(random.randint(1, 9)))
    name = random.choice(NAMES_IN_ORDER[notation] if chance < 0.85 else ALL_NAMES)
    return (random.choice(PREFIX_NAMES) if random.random() < 0.5 else '') + name


class Writer:
    """Writes a text of a grammar by taking alternatives at random; after `room` bytes it takes the first that has no rule inside itself."""

    def __init__(self, random, notation, room, digits=DIGITS):
        self.random, self.notation, self.room, self.digits = random, notation, room, digits
        self.rules = GRAMMARS[notation].rules

    def alternative(self, rule):
        alternatives = self.rules[rule]
        if self.room <= 0:
            return alternatives[0] if rule != 'whole' else alternatives[1]
        weights = [WEIGHTS.get(rule, {}).get(number, 1) for number in range(len(alternatives))]
        return self.random.choices(alternatives, weights)[0]

    def text(self, rule):
        if rule == 'letters':
            found = spelling(self.random, self.notation)
        elif rule in self.digits:
            found = self.random.choice(self.digits[rule])
        elif rule == 'sp':
            found = self.random.choice(['', '', '', ' ', '  '])
        else:
            return ''.join(self.token(token) for token in self.alternative(rule))
        self.room -= len(found)
        return found

    def token(self, token):
        if token[0] != '"':
            return self.text(token)
        self.room -= len(token) - 2
        return token[1:-1]


def valid(random, notation):
    return Writer(random, notation, random.choice([8, 20, 40, 100])).text('whole').encode('ascii')


def near_decimal(random, notation):
    return Writer(random, notation, random.choice([20, 40]), NEAR_DECIMALS).text('whole').encode('ascii')


def damaged(random, notation):
    data = bytearray(valid(random, notation))
    for _ in range(random.randint(1, 3)):
        place = random.randrange(len(data) + 1)
        sign = random.choice(SIGNS).encode('ascii')
        data[place:place + random.randint(0, 1)] = sign if random.random() < 0.7 else b''
    return bytes(data)


def any_bytes(random, notation):
    return bytes(random.randrange(256) for _ in range(random.choice([1, 3, 20, 256])))


def any_signs(random, notation):
    return ''.join(random.choice(SIGNS) for _ in range(random.randint(1, 40))).encode('ascii')


def many(random, notation):
    """Many labels in a row: at and above 32 terms and 255 bytes."""
    join = {FITS: b' ', OGIP: b'*', CDS: b'.', VOUNITS: b'.', STARLINK: b'*'}[notation]
    size = random.choice([1, 1, 2, 3, 7])
    words = [spelling(random, notation)[:size].encode('ascii') for _ in range(random.choice([31, 32, 33, 34]))]
    return join.join(words)


def nested(random, notation):
    depth = random.randint(1, 11)
    return b'(' * depth + valid(random, notation) + b')' * (depth if random.random() < 0.9 else 1)


def bad_byte(random, notation):
    data = bytearray(valid(random, notation))
    data.insert(random.randrange(len(data) + 1), random.choice([0, 9, 10, 13, 31, 127, 128, 181, 255]))
    return bytes(data)


KINDS = [valid] * 24 + [damaged] * 10 + [any_bytes, any_signs, nested, near_decimal] * 2 + [many, bad_byte]


def label(random, notation):
    """A label for the notation, of any kind."""
    return random.choice(KINDS)(random, notation)
