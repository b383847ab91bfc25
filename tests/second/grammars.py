"""The five grammars, one for each notation, and a recogniser that knows nothing of notations.

Each grammar is written as its paragraph in document 01, or in document 02, W3, is, with the decimals of document 02, W2. The recogniser finds
every meaning that a grammar gives a text: each rule, at each place, gives the set of all (end, meaning), and no longest match is taken
anywhere."""
import re
import sys
from math import gcd

from .notations import NOTATIONS

sys.setrecursionlimit(200000)

# GRAMMARS: a rule has alternatives of texts, classes of characters and rules

COMMON = r'''
nonzero   = [1-9]
more      = [0-9]*
letters   = [a-zA-Z]+
unsigned  = nonzero more
signed    = "+" unsigned | "-" unsigned
integer   = unsigned | signed
places    = [0-9]+
nought    = "0" | "+" "0" | "-" "0"
decimal   = integer "." places | nought "." places
ratio     = integer "/" unsigned
bracketed = "(" integer ")" | "(" decimal ")" | "(" ratio ")"
power     = integer | bracketed
zeros     = [0-0]*
plain     = "1" zeros
tenint    = "10" "**" integer
tenbr     = "10" "**" "(" integer ")"
unit      = spelling | spelling exponent
item      = unit | group
'''

FITS = COMMON + r'''
plainsp  = letters
spelling = plainsp
exponent = integer | bracketed | "**" power | "^" power
join     = " " | "*" | "."
product  = item | item join product
group    = "(" product ")"
over     = "/" item
kint     = integer | "(" integer ")"
factor   = "10" "**" kint | "10" "^" kint | "10" signed
head     = factor | factor " "
whole    = | product | product over | over | head product | head product over
'''

OGIP = COMMON + r'''
plainsp  = letters
spelling = plainsp
exponent = "**" power
sp       = [ - ]*
over     = sp "/" sp item
rest     = | " " sp item rest | sp "*" sp item rest | over rest
chain    = item rest | over rest
group    = "(" chain ")"
factor   = tenint | tenbr | plain
whole    = | chain | factor sp chain
'''

CDS = COMMON + r'''
plainsp  = letters | "%"
spelling = plainsp
exponent = integer
over     = "/" item
rest     = | "." item rest | over rest
chain    = item rest | over rest
group    = "(" chain ")"
factor   = tenint | plain | "10" signed
whole    = | chain | factor chain
'''

VOUNITS = COMMON + r'''
plainsp  = letters
prefix   = "da" | "h" | "k" | "M" | "G" | "T" | "P" | "E" | "Z" | "Y" | "d" | "c" | "m" | "u" | "n" | "p" | "f" | "a" | "z" | "y"
quotesp  = "'" letters "'"
pquotesp = prefix "'" letters "'"
spelling = plainsp | quotesp | pquotesp
exponent = "**" power
product  = item | item "." product
over     = "/" item
body     = product | product over
group    = "(" body ")"
factor   = tenint | tenbr | plain
whole    = | body | factor body
'''

STARLINK = COMMON + r'''
plainsp  = letters
spelling = plainsp
exponent = "**" power
product  = item | item "*" product
group    = "(" product ")"
over     = "/" item
whole    = | product | product over
'''

# MEANINGS: what a rule makes of the text from s to e and of the meanings of its parts.
# A number is ('q', numerator, denominator, breaks a bound); a term ('t', spelling, numerator, denominator, breaks a bound).


def unsigned(text, s, e, parts):
    return (('q', int(text[s:e]), 1, e - s > 4),)


def signed(text, s, e, parts):
    (_, n, d, bad), = parts
    return (('q', -n if text[s] == '-' else n, d, bad),)


def places(text, s, e, parts):
    return (('places', text[s:e]),)


# document 02: "A decimal may now also start, after its sign, with a single 0 before the point."
def nought(text, s, e, parts):
    return (('q', 0, 1, False),)


# document 02: "A decimal whose digits are all 0 is grammatical and gets refusal 5."
def decimal(text, s, e, parts):
    (_, n, _, bad), (_, digits) = parts
    ones = 10 ** len(digits)
    size = abs(n) * ones + int(digits)
    return (('q', -size if text[s] == '-' else size, ones, bad or len(digits) > 4 or size == 0),)


def ratio(text, s, e, parts):
    (_, n, _, bad), (_, d, _, bad_below) = parts
    return (('q', n, d, bad or bad_below),)


def plain(text, s, e, parts):
    return (('q', e - s - 1, 1, False),)


def factor(text, s, e, parts):
    (_, k, _, bad), = parts
    return (('k', k, bad or abs(k) > 99),)


# a spelling: where it starts and ends, its prefix if it has quotes, and where its letters start then
def plainsp(text, s, e, parts):
    return (('spelling', s, e, None, s),)


def quotesp(text, s, e, parts):
    return (('spelling', s, e, '', s + 1),)


def pquotesp(text, s, e, parts):
    quote = text.index("'", s)
    return (('spelling', s, e, text[s:quote], quote + 1),)


def unit(text, s, e, parts):
    if len(parts) == 1:
        return (('t', parts[0], 1, 1, False),)
    _, n, d, bad = parts[1]
    n, d = n // gcd(n, d), d // gcd(n, d)
    return (('t', parts[0], n, d, bad or 60 % d != 0 or abs(n) > 99 * d),)


def over(text, s, e, parts):
    return tuple(('t', spelling, -n, d, bad) for _, spelling, n, d, bad in parts)


ACTIONS = {f.__name__: f for f in (unsigned, signed, places, nought, decimal, ratio, plain, factor, plainsp, quotesp, pquotesp, unit, over)}

# THE RECOGNISER

END = ''


def characters(token):
    return {chr(i) for a, b in re.findall('(.)-(.)', token.rstrip('*+')[1:-1]) for i in range(ord(a), ord(b) + 1)}


def parsed(source):
    rules = {}
    for line in source.strip().splitlines():
        if line.strip():
            name, right = line.split('=', 1)
            alternatives = [[]]
            for token in re.findall(r'"[^"]*"|\[[^\]]*\][*+]?|[a-z]+|\|', right):
                if token == '|':
                    alternatives.append([])
                else:
                    alternatives[-1].append(token)
            assert name.strip() not in rules
            rules[name.strip()] = alternatives
    return rules


class Grammar:
    def __init__(self, source):
        self.rules = parsed(source)
        self.classes = {t: characters(t) for a in self.rules.values() for seq in a for t in seq if t[0] == '['}
        self.first = {name: set() for name in self.rules}
        while any([self.add_first(name) for name in self.rules]):
            pass
        self.firsts = {name: [(self.first_of(tokens), tokens) for tokens in self.rules[name]] for name in self.rules}

    def first_of(self, tokens):
        """The characters that can come first where the tokens are matched; with END, that can also be anything."""
        found = set()
        for token in tokens:
            if token[0] == '"':
                return found | {token[1]}
            first = self.first[token] if token[0] != '[' else self.classes[token] | ({END} if token[-1] == '*' else set())
            found |= first - {END}
            if END not in first:
                return found
        return found | {END}

    def add_first(self, name):
        """Whether the rule has more first characters than were known."""
        known = len(self.first[name])
        self.first[name].update(*map(self.first_of, self.rules[name]))
        return len(self.first[name]) > known

    def meanings(self, text):
        """All meanings of the text, limits not counted."""
        self.text, self.memo = text, {}
        if text.startswith(' ') or text.endswith(' '):
            return []
        return [meaning for end, meaning in self.rule('whole', 0) if end == len(text)]

    def token(self, token, at):
        if token[0] == '"':
            return [(at + len(token) - 2, ())] if self.text.startswith(token[1:-1], at) else []
        if token[0] != '[':
            return self.rule(token, at)
        chars, found = self.classes[token], [(at, ())] if token[-1] == '*' else []
        while at < len(self.text) and self.text[at] in chars:
            at += 1
            found.append((at, ()))
            if token[-1] == ']':
                break
        return found

    def rule(self, name, at):
        if (name, at) not in self.memo:
            action, found, follows = ACTIONS.get(name), {}, self.text[at:at + 1]
            for first, alternative in self.firsts[name]:
                if follows not in first and END not in first:
                    continue
                ways = [(at, ())]
                for token in alternative:
                    ways = [(end, parts + more) for start, parts in ways for end, more in self.token(token, start)]
                for end, parts in ways:
                    found[end, action(self.text, at, end, parts) if action else parts] = None
            self.memo[name, at] = list(found)
        return self.memo[name, at]


GRAMMARS = dict(zip(NOTATIONS, map(Grammar, (FITS, OGIP, CDS, VOUNITS, STARLINK))))
