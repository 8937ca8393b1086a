"""What Lua 5.3, Lua 5.4 and the Rust are to answer, and why where that isn't document 02's answer.

Every answer is foretold in whole numbers, the ones that differ too: so a difference has a cause of this list and the value that the
cause gives it, or the script that asks stops."""
import re
from fractions import Fraction

from figure import BLANKS, FORM, POWER, decimal, figure, hexadecimal, judged, split
import named
from causes import named_by_lua, product_vanishes
from named import ARITHMETIC, BITS
from reference import INTEGER, NUMBER, OPERATORS, STRING, TOP, nearest, remainder, to_number

# The causes.
MORE_DIGITS = 'a fraction of more than 15 significant digits is a number'
MORE_POWER = 'a fraction whose net power of ten is past 22 is a number'
HEX_FRACTION = 'a 0x fraction, or one with an exponent `p`, is a number'
FLOATS = 'a string that reads as an integer becomes a number in arithmetic'
NO_BITS = 'a bit operation on a string is an error'
VANISHES = '`%` of numbers asks whether remainder times divisor is below zero, and the product rounds to zero'
STRING_LIBRARY = 'arithmetic with a string goes by the string library, whose message has the kinds of both operands and names neither'
BLANK_ENDS = 'a string with blanks at its ends is refused'
SMALLEST = 'the smallest integer is refused'
WRAPS = 'a 0x integer from 2^63 on is refused'
PAST_END = '`read_hex_integer` reads past the end where nothing, or one `0`, follows the sign'
KIND = 'a string that reads as an integer is read by `read_float` too, which the arithmetic of `Constant` asks'
NO_DIGITS = '0x without digits is the integer 0'
NAMED = '`inf`, `infinity` and `nan` of any case are numbers'


def answer(value):
    """An integer or a number as the lists have it; `e` for None."""
    return 'e' if value is None else '%s%016x' % ('i' if value[0] == INTEGER else 'n', value[1])


def size_of(digits, base, power):
    """digits x base^power, far beyond the numbers where the power is."""
    bits = 3 if base == 10 else 1
    if digits == 0 or digits.bit_length() + bits * power < -1400:
        return Fraction(0)
    if power > 1400:
        return Fraction(2) ** 2000
    return digits * Fraction(base) ** power


def hex_fraction(body):
    """0x with a point or an exponent p, or both: its value; or None."""
    m = re.fullmatch(rb'0[xX]([0-9a-fA-F]*)(\.([0-9a-fA-F]*))?([pP]([-+]?[0-9]+))?', body)
    if not m or not m[1] + (m[3] or b'') or not (m[2] or m[4]):
        return None
    return size_of(int(m[1] + (m[3] or b''), 16), 2, int(m[5] or b'0') - 4 * len(m[3] or b''))


def lua_figure(text):
    """What Lua takes a string for, and the cause where document 02 doesn't."""
    known, reason = judged(text)
    if known:
        return known, None
    minus, body = split(text)
    if reason != FORM:
        _, digits, power = decimal(body)
        return (NUMBER, nearest(minus, size_of(digits, 10, power))), MORE_POWER if reason == POWER else MORE_DIGITS
    size = hex_fraction(body)
    return (None, None) if size is None else ((NUMBER, nearest(minus, size)), HEX_FRACTION)


def lua_operand(version, name, value):
    """What an operator of Lua's takes a value for, and the cause where document 02 takes it for another."""
    if value[0] != STRING or name not in ARITHMETIC + BITS:
        return value, None
    found, cause = lua_figure(value[1])
    if found is None:
        return value, None
    if version == '5.4' and name not in ARITHMETIC:
        return value, NO_BITS
    if version == '5.3' and name in ARITHMETIC and found[0] == INTEGER:
        return (NUMBER, to_number(found)), cause or FLOATS
    return found, cause


def ours(name, operands):
    """Document 02's answer."""
    return named.answer(name, operands, figure)


def lua_answer(version, name, operands):
    """Lua's answer, and the cause where it isn't document 02's. An error is whom Lua names: `1`, `2`, `z` for a zero divisor, `e` for none."""
    taken = [lua_operand(version, name, v) for v in operands]
    values = [v for v, _ in taken]
    got, cause = OPERATORS[name](*values), None
    if got == 'e':
        got, cause = named_by_lua(name, values)
        if version == '5.4' and name in ARITHMETIC and got != 'z' and STRING in [v[0] for v in operands]:
            return 'e', STRING_LIBRARY
    if version == '5.3' and name == 'modulo' and got[0] == 'n' and product_vanishes(*map(to_number, values)):
        got, cause = 'n%016x' % remainder(*map(to_number, values)), VANISHES
    causes = [c for _, c in taken if c]
    return got, next((c for c in causes if c != FLOATS), causes[0] if causes else cause)


# ---- the Rust

def rust_set(text, got):
    """Why the Rust's answers to a string of the set, its blanks off, aren't document 02's: the causes. None where there is no cause."""
    integer, number = got
    want = figure(text)
    _, body = split(text)
    if want[0] == NUMBER:
        return [] if got == ('e', answer(want)) else None
    value = hexadecimal(body)
    if value is None and number != answer((NUMBER, nearest(text[:1] == b'-', Fraction(int(body))))) or number == 'e':
        return None
    if integer == answer(want):
        return [KIND]
    if value is None and body == b'0' and integer == 'p':
        return [KIND, PAST_END]
    if value is None and want[1] == TOP and integer == 'e':
        return [KIND, SMALLEST]
    return [KIND, WRAPS] if value is not None and value >= TOP and integer == 'e' else None


def rust_outside(text, got):
    """The same of a string outside the set, as it stands."""
    integer, number = got
    _, body = split(text)
    if text != text.strip(BLANKS):
        return [] if got == ('e', 'e') else None
    found, cause = lua_figure(text)
    if cause in (MORE_DIGITS, MORE_POWER):
        return [cause] if got == ('e', answer(found)) else None
    if body == b'':
        return [PAST_END] if got == ('p', 'e') else None
    if body.lower() == b'0x':
        return [NO_DIGITS] if got == ('i%016x' % 0, 'e') else None
    if body.lower() in (b'inf', b'infinity', b'nan'):
        return [NAMED] if integer == 'e' and number[0] == 'n' else None
    if re.fullmatch(rb'0[xX][0-9a-fA-F]*\.?[0-9a-fA-F]*([pP][-+]?[0-9]*)?', body) and number[0] == 'n':
        return [HEX_FRACTION] if integer == 'e' and (found is None or number == answer(found)) else None
    return [] if got == ('e', 'e') else None


def rust_causes(text, raw, bare):
    """The causes by which the Rust's answers to a text, as it stands and without its blanks, aren't document 02's; None where there is no cause."""
    if figure(text) is None:
        return rust_outside(text, raw)
    causes = rust_set(text.strip(BLANKS), bare)
    if causes is None or text == text.strip(BLANKS):
        return causes
    return [BLANK_ENDS] + causes if raw == ('e', 'e') else None
