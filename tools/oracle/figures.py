"""Figures that arrive as text: what a string's bytes read as under arithmetic and bit operations (document 02, request 1/12).

    figure(data)    the integer or the number as (kind, word), or None where the string is outside the set

The number is worked out with whole numbers and fractions, without Python's floats."""
import re
from fractions import Fraction

from .values import NUMBER, integer

# "optional blanks (bytes 9 to 13, 32) at both ends, an optional sign, then a decimal or 0x integer, or a decimal fraction, exponent allowed"
FORM = re.compile(rb'[\x09-\x0d\x20]*([+-]?)(?:0[xX]([0-9a-fA-F]+)|([0-9]*)(\.?)([0-9]*)(?:[eE]([+-]?[0-9]+))?)[\x09-\x0d\x20]*')
# "at most 15 significant digits and a net power of ten from -22 to 22"
MOST_DIGITS, MOST_POWER = 15, 22


def figure(data):
    found = FORM.fullmatch(data)
    if not found:
        return None
    sign, hexadecimal, whole, point, places, exponent = found.groups()
    minus = sign == b'-'
    if hexadecimal:
        # "0x ones wrap"
        return integer(-int(hexadecimal, 16) if minus else int(hexadecimal, 16))
    if not whole + places:
        return None
    digits = int(whole + places)
    if not point and exponent is None:
        n = -digits if minus else digits
        if -2**63 <= n < 2**63:
            return integer(n)
        # "Decimal integers that with their sign don't fit an i64 are read as fractions under that rule"
    return fraction(minus, digits, int(exponent or 0) - len(places))


def fraction(minus, digits, power):
    """digits * 10 ^ power, "both without leading and trailing zeros; zero fits"."""
    if digits == 0:
        return NUMBER, minus << 63
    while digits % 10 == 0:
        digits, power = digits // 10, power + 1
    if digits >= 10**MOST_DIGITS or abs(power) > MOST_POWER:
        return None
    return NUMBER, minus << 63 | nearest(digits * Fraction(10)**power)


def nearest(x):
    """The bits of the number that is nearest to a fraction from 10 ^ -22 to 10 ^ 37, "ties to even"."""
    power = 0
    while x >= 2:
        x, power = x / 2, power + 1
    while x < 1:
        x, power = x * 2, power - 1
    # One leading digit and 52 behind it; a carry goes into the exponent.
    scaled = x * 2**52
    below = scaled.numerator // scaled.denominator
    rest = scaled - below
    up = rest > Fraction(1, 2) or rest == Fraction(1, 2) and below % 2 == 1
    return (power + 1022 << 52) + below + up
