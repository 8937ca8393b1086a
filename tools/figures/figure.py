"""What a text reads as: document 02, 1/12, in whole numbers and fractions, no floats of the host.

Written from the text of document 02 and from nothing else of this project but `nearest` of tools/vectors/reference.py, the
number nearest to a fraction, ties to even.

A figure is (INTEGER, word) or (NUMBER, word) as a register holds it, or None; then `reason` says why it is none."""
import os
import re
import sys
from fractions import Fraction
from functools import lru_cache

sys.dont_write_bytecode = True
sys.path.insert(1, os.path.join(os.path.dirname(os.path.realpath(__file__)), '..', 'vectors'))
from reference import INTEGER, NUMBER, TOP, nearest

BLANKS = bytes([9, 10, 11, 12, 13, 32])
# "at most 15 significant digits and a net power of ten from -22 to 22".
MOST_DIGITS = 15
MOST_POWER = 22

FORM, DIGITS, POWER = 'form', 'digits', 'power'


def split(text):
    """A text without the blanks at its ends: whether it has a minus, and what follows the sign."""
    body = text.strip(BLANKS)
    return body[:1] == b'-', body[1:] if body[:1] in (b'-', b'+') else body


def hexadecimal(body):
    """The value of 0x and its digits, or None."""
    return int(body[2:], 16) if re.fullmatch(rb'0[xX][0-9a-fA-F]+', body) else None


def decimal(body):
    """Whether it has a point or an exponent, its digits' value and its net power of ten; or None. "5." and ".5" are in."""
    m = re.fullmatch(rb'([0-9]*)(\.([0-9]*))?([eE]([-+]?[0-9]+))?', body)
    if not m or not m[1] + (m[3] or b''):
        return None
    return m[2] is not None or m[4] is not None, int(m[1] + (m[3] or b'')), int(m[5] or b'0') - len(m[3] or b'')


def trimmed(digits, power):
    """The same value without trailing zeros in the digits. Only for digits that aren't 0."""
    while digits % 10 == 0:
        digits, power = digits // 10, power + 1
    return digits, power


@lru_cache(None)
def judged(text):
    """The figure and, where there is none, the reason."""
    minus, body = split(text)
    value = hexadecimal(body)
    if value is not None:
        return (INTEGER, (-value if minus else value) % (2 * TOP)), None
    parts = decimal(body)
    if parts is None:
        return None, FORM
    fraction, digits, power = parts
    if not fraction and (digits <= TOP if minus else digits < TOP):
        return (INTEGER, (-digits if minus else digits) % (2 * TOP)), None
    if digits == 0:
        return (NUMBER, nearest(minus, Fraction(0))), None
    digits, power = trimmed(digits, power)
    if digits >= 10**MOST_DIGITS:
        return None, DIGITS
    if not -MOST_POWER <= power <= MOST_POWER:
        return None, POWER
    return (NUMBER, nearest(minus, digits * Fraction(10) ** power)), None


def figure(text):
    return judged(text)[0]


def reason(text):
    return judged(text)[1]
