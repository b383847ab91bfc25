"""Converting between two labels: document 01, "Sizes and conversion", and refusals 8 to 11."""
from fractions import Fraction

from .reading import dimensions, read, scale
from .symbols import PRIMES

LARGEST = 2 ** 53
LARGEST_POWER = 9999


def factor(exponents):
    """n, d and k for a product of powers of 2, 3, 5 and 487: "factor n/d times ten to the k, n/d in lowest terms and neither divisible
    by 5"."""
    # Each 5 takes a 2 with it into ten to the k.
    k = exponents[PRIMES.index(5)]
    fraction = Fraction(2) ** -k
    for prime, exponent in zip(PRIMES, exponents):
        if prime != 5:
            fraction *= Fraction(prime) ** exponent
    assert fraction.numerator % 5 and fraction.denominator % 5
    return fraction.numerator, fraction.denominator, k


def convert(first_notation, first_data, second_notation, second_data):
    """The number, n, d and k. "A refused conversion is 0/1, k = 0."

    "Conversion checks 1 to 7 on the first label, then on the second, then 8 to 11." """
    first, second = read(first_notation, first_data), read(second_notation, second_data)
    if first.number or second.number:
        return first.number or second.number, 0, 1, 0
    # 8: "an unknown unit in either label"
    if not all(term.known for term in first.terms + second.terms):
        return 8, 0, 1, 0
    # 9: "the dimensions differ"
    if dimensions(first) != dimensions(second):
        return 9, 0, 1, 0
    # 10: "The factor is a fraction exactly if these four have whole exponents in first over second."
    exponents = [above - below for above, below in zip(scale(first), scale(second))]
    if any(exponent.denominator != 1 for exponent in exponents):
        return 10, 0, 1, 0
    # 11: "numerator or denominator above 2 to the 53, or k outside -9,999 to 9,999"
    n, d, k = factor([int(exponent) for exponent in exponents])
    if n > LARGEST or d > LARGEST or abs(k) > LARGEST_POWER:
        return 11, 0, 1, 0
    return 0, n, d, k
