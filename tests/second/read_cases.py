"""Cases for reading: (notation, label)."""
from random import Random

from . import decimal_cases, starlink_cases
from .labels import ALL_NAMES, PREFIX_NAMES, label
from .notations import NO_NOTATIONS, NOTATIONS
from .rewrite_cases import numbers, refused, special
from .writing import JOIN


def every_spelling():
    """Every prefix with every name of any notation, known there or not."""
    return [(notation, (prefix + name).encode('ascii')) for notation in NOTATIONS for prefix in [''] + PREFIX_NAMES for name in ALL_NAMES]


def many_terms():
    """31 to 34 terms, of one letter and of as many as fit."""
    return [(notation, JOIN[notation].join([word] * terms).encode('ascii'))
            for notation in NOTATIONS for terms in (31, 32, 33, 34) for word in ('m', 'solMass', 'q' * 7, 'q' * 6)]


def cases(seed, count):
    random = Random(seed)
    found = [(source, data) for source, data, _, _ in special() + numbers() + refused()]
    found = sorted(set(found)) + every_spelling() + many_terms() + decimal_cases.own() + decimal_cases.foreign()
    found += starlink_cases.everywhere() + starlink_cases.rewritten()
    for _ in range(count):
        notation = random.choice(NOTATIONS)
        data = label(random, notation)
        found.append((notation if random.random() < 0.98 else random.choice(NO_NOTATIONS), data))
    return found


def text(seed, count, everything):
    return ''.join('%d %s\n' % (notation, data.hex() or '-') for notation, data in cases(seed, count)).encode('ascii')
