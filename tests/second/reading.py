"""Reading a label: refusals 1 to 7, terms, verdicts, dimensions and scale."""
from collections import namedtuple
from fractions import Fraction
from functools import lru_cache

from .grammars import GRAMMARS
from .symbols import PREFIXES, PRIMES, SHOWN, SIZE, is_lawful, symbol

# `name` is the unit's name as the label has it, or an unknown unit's letters
Term = namedtuple('Term', 'start end prefix known name quoted exponent')
Reading = namedtuple('Reading', 'number k terms')


def deepest(text):
    depth = most = 0
    for c in text:
        depth += (c == '(') - (c == ')')
        most = max(most, depth)
    return most


def refusal(notation, data):
    """The number of the first refusal of 1 to 4, and the meaning where there is none."""
    if notation not in GRAMMARS:
        return 1, None
    if len(data) > 255:
        return 2, None
    if any(b < 0x20 or b > 0x7e for b in data):
        return 3, None
    found = GRAMMARS[notation].meanings(data.decode('ascii'))
    assert len(found) <= 1, (notation, data, found)
    return (0, found[0]) if found else (4, None)


def limits(text, k, terms):
    if k[2] or any(term[4] for term in terms):
        return 5
    return 6 if deepest(text) > 8 else 7 if len(terms) > 32 else 0


def term(notation, text, meaning):
    _, (_, start, end, quoted, letters), n, d, _ = meaning
    prefix, known, name = symbol(notation, text[start:end]) if quoted is None else (quoted, False, text[letters:end - 1])
    return Term(start, end, prefix, known, name, quoted is not None, Fraction(n, d))


@lru_cache(maxsize=100000)
def read(notation, data):
    """"A refused reading has no terms, k = 0"."""
    number, meaning = refusal(notation, data)
    if number:
        return Reading(number, 0, ())
    text = data.decode('ascii')
    k = ([part for part in meaning if part[0] == 'k'] or [('k', 0, False)])[0]
    terms = [part for part in meaning if part[0] == 't']
    number = limits(text, k, terms)
    if number:
        return Reading(number, 0, ())
    return Reading(0, k[1], tuple(term(notation, text, part) for part in terms))


def unit(term):
    """The unit of a known term, the same for all of its names."""
    return SHOWN.get(term.name, term.name)


def dimensions(reading):
    """"A label's dimensions are its bases' exponents summed over the terms"."""
    sums = {}
    for term in reading.terms:
        if term.known:
            bases, _ = SIZE.get(unit(term), ({unit(term): 1}, None))
            for base, count in bases.items():
                sums[base] = sums.get(base, 0) + count * term.exponent
    return {base: exponent for base, exponent in sums.items() if exponent != 0}


def scale(reading):
    """The exponents of 2, 3, 5 and 487 in a label's scale, "from k, prefixes and sizes". "An unknown unit adds its prefix only"."""
    tens = reading.k + sum(PREFIXES.get(term.prefix, 0) * term.exponent for term in reading.terms)
    primes = [Fraction(tens), Fraction(0), Fraction(tens), Fraction(0)]
    for term in reading.terms:
        if term.known and unit(term) in SIZE:
            _, size = SIZE[unit(term)]
            primes = [exponent + count * term.exponent for exponent, count in zip(primes, size)]
    assert len(primes) == len(PRIMES)
    return primes


def verdicts(notation, reading):
    if reading.number:
        return 'nnn'
    known = all(term.known for term in reading.terms)
    lawful = all(is_lawful(notation, unit(term), term.prefix) for term in reading.terms if term.known)
    recommended = known and all(unit(term) not in ('angstrom', 'erg', 'G', 'barn') for term in reading.terms)
    return ''.join('y' if verdict else 'n' for verdict in (known, lawful, recommended))


def shown_term(term):
    prefix = 'ten^%d' % PREFIXES[term.prefix] if term.prefix else '-'
    name = unit(term) if term.known else '?' + term.name + ("'" if term.quoted else '')
    return '%d+%d:%s:%s:%s' % (term.start, term.end - term.start, prefix, name, term.exponent)


def shown(notation, data):
    """A reading as vectors/README.md writes it."""
    reading = read(notation, data)
    terms = ' '.join(map(shown_term, reading.terms))
    left = ' '.join('%s:%s' % pair for pair in sorted(dimensions(reading).items()))
    primes = '/'.join(map(str, scale(reading)))
    return '%d k=%d %s place=0 [%s] {%s} %s' % (reading.number, reading.k, verdicts(notation, reading), terms, left, primes)
