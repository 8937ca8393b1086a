"""The documents' arithmetic and order, exactly: whole numbers, fractions and bit patterns, no floats of the host.

Written from document 01 ("Arithmetic and order"), for `%` of numbers from document 02, 3/12, from the Lua 5.3 manual, and
from nothing else of this project, so that three lists can be held against each other: Lua's, the Rust's and this one.
`compare.py` does that.

A value is (kind, word) as in values.txt, or (4, bytes). An answer is what the lists have: `i` or `n` and 16 digits,
`t`, `f`; or `e` for an error, and named.py tells whom it names.
"""
from fractions import Fraction

NIL, BOOLEAN, INTEGER, NUMBER, STRING = range(5)
TOP = 1 << 63
ONE_NAN = 0x7FF8000000000000
INFINITY = 0x7FF0000000000000


# Integers: 64 bits, two's complement.

def signed(word):
    return word - 2 * TOP if word & TOP else word


def integer(z):
    """z wrapped around at 64 bits."""
    return "i%016x" % (z % (2 * TOP))


# Numbers: binary64. A finite one is its sign and its size, a fraction.

def is_nan(word):
    return word % TOP > INFINITY


def is_infinite(word):
    return word % TOP == INFINITY


def negative(word):
    return word >= TOP


def size(word):
    """The absolute value of a finite number."""
    field, digits = word >> 52 & 0x7FF, word & ((1 << 52) - 1)
    if field == 0:
        return Fraction(digits, 1 << 1074)
    return Fraction(digits + (1 << 52)) * Fraction(2) ** (field - 1075)


def exact(word):
    """The value of a finite number."""
    return -size(word) if negative(word) else size(word)


def signed_word(minus, word):
    return word + TOP if minus else word


def nearest(minus, q):
    """The number nearest to the size q >= 0, ties to even, with the sign given (a zero keeps it too)."""
    if q == 0:
        return signed_word(minus, 0)
    unit = max(-1074, q.numerator.bit_length() - q.denominator.bit_length() - 53)
    if q >= Fraction(2) ** (unit + 53):
        unit += 1
    scaled = q / Fraction(2) ** unit
    digits, rest = divmod(scaled.numerator, scaled.denominator)
    if 2 * rest > scaled.denominator or (2 * rest == scaled.denominator and digits % 2 == 1):
        digits += 1
    # Adding puts the leading one, and a carry, into the exponent's field.
    return signed_word(minus, min(((unit + 1074) << 52) + digits, INFINITY))


def rounded(q):
    return nearest(q < 0, abs(q))


def add_numbers(x, y):
    if is_nan(x) or is_nan(y):
        return ONE_NAN
    if is_infinite(x):
        return ONE_NAN if is_infinite(y) and x != y else x
    if is_infinite(y):
        return y
    total = exact(x) + exact(y)
    if total == 0:
        return TOP if negative(x) and negative(y) else 0
    return rounded(total)


def negate_number(x):
    return ONE_NAN if is_nan(x) else x ^ TOP


def subtract_numbers(x, y):
    return add_numbers(x, negate_number(y))


def multiply_numbers(x, y):
    minus = negative(x) != negative(y)
    if is_nan(x) or is_nan(y):
        return ONE_NAN
    if is_infinite(x) or is_infinite(y):
        return ONE_NAN if x % TOP == 0 or y % TOP == 0 else signed_word(minus, INFINITY)
    return nearest(minus, size(x) * size(y))


def divide_numbers(x, y):
    minus = negative(x) != negative(y)
    if is_nan(x) or is_nan(y):
        return ONE_NAN
    if is_infinite(x):
        return ONE_NAN if is_infinite(y) else signed_word(minus, INFINITY)
    if is_infinite(y):
        return signed_word(minus, 0)
    if y % TOP == 0:
        return ONE_NAN if x % TOP == 0 else signed_word(minus, INFINITY)
    return nearest(minus, size(x) / size(y))


def floor_number(x):
    if is_nan(x) or is_infinite(x) or x % TOP == 0:
        return x
    return rounded(Fraction(exact(x) // 1))


def remainder(x, y):
    """`%` of two numbers as the language gives it: exact, with the sign of the dividend."""
    if is_nan(x) or is_nan(y) or is_infinite(x) or y % TOP == 0:
        return ONE_NAN
    if is_infinite(y):
        return x
    return nearest(negative(x), size(x) % size(y))


def floor_divide_numbers(x, y):
    return floor_number(divide_numbers(x, y))


def opposed(x, y):
    """Whether two numbers have strictly opposite signs: a zero has none, NaN neither."""
    if is_nan(x) or is_nan(y) or x % TOP == 0 or y % TOP == 0:
        return False
    return negative(x) != negative(y)


def modulo_numbers(x, y):
    """Document 02: r = a % b, "and r + b rounded once where r and b have strictly opposite signs"."""
    r = remainder(x, y)
    return add_numbers(r, y) if opposed(r, y) else r


# Values.

def is_numeric(v):
    return v[0] in (INTEGER, NUMBER)


def to_number(v):
    return v[1] if v[0] == NUMBER else rounded(Fraction(signed(v[1])))


def to_integer(v):
    """The integer that a value is, or None."""
    if v[0] == INTEGER:
        return signed(v[1])
    if v[0] != NUMBER or is_nan(v[1]) or is_infinite(v[1]):
        return None
    q = exact(v[1])
    return int(q) if q.denominator == 1 and -TOP <= q < TOP else None


def arithmetic(on_integers, on_numbers):
    def operator(a, b):
        if not (is_numeric(a) and is_numeric(b)):
            return "e"
        if on_integers and a[0] == INTEGER and b[0] == INTEGER:
            return on_integers(signed(a[1]), signed(b[1]))
        return "n%016x" % on_numbers(to_number(a), to_number(b))
    return operator


def bits(on_integers):
    def operator(a, b):
        x, y = to_integer(a), to_integer(b)
        return "e" if x is None or y is None else integer(on_integers(x, y))
    return operator


def shifted(x, count):
    """x moved up by count places, down where it is negative; 64 places leave nothing either way."""
    x %= 2 * TOP
    if count >= 0:
        return x << count if count < 64 else 0
    return x >> -count if count > -64 else 0


def negate(a):
    if a[0] == INTEGER:
        return integer(-signed(a[1]))
    return "n%016x" % negate_number(a[1]) if a[0] == NUMBER else "e"


def bitwise_not(a):
    x = to_integer(a)
    return "e" if x is None else integer(-1 - x)


def order(a, b):
    """-1, 0 or 1 by exact value, None where a NaN is in no order."""
    def key(v):
        if v[0] == INTEGER:
            return (0, Fraction(signed(v[1])))
        if is_infinite(v[1]):
            return (-1 if negative(v[1]) else 1, Fraction(0))
        return (0, exact(v[1]))
    if any(v[0] == NUMBER and is_nan(v[1]) for v in (a, b)):
        return None
    return (key(a) > key(b)) - (key(a) < key(b))


def yes(truth):
    return "t" if truth else "f"


def is_equal(a, b):
    if is_numeric(a) and is_numeric(b):
        return yes(order(a, b) == 0)
    return yes(a == b)


def ordered(holds):
    def operator(a, b):
        if is_numeric(a) and is_numeric(b):
            o = order(a, b)
            return yes(o is not None and holds(o))
        if a[0] == STRING and b[0] == STRING:
            return yes(holds((a[1] > b[1]) - (a[1] < b[1])))
        return "e"
    return operator


def past_end(index, limit, step):
    below = less_than(step, (INTEGER, 0)) == "t"
    return less_than(index, limit) if below else less_than(limit, index)


def numeric_for_loop(index, limit, step):
    """The new index, and whether it is past the end."""
    if not all(is_numeric(v) for v in (index, limit, step)):
        return "e"
    total = OPERATORS["add"](index, step)
    new = (INTEGER if total[0] == "i" else NUMBER, int(total[1:], 16))
    return total + past_end(new, limit, step)


def by_zero(rule):
    return lambda x, y: "e" if y == 0 else integer(rule(x, y))


less_than = ordered(lambda o: o < 0)
less_equal = ordered(lambda o: o <= 0)

OPERATORS = {
    "negate": negate,
    "bitwise_not": bitwise_not,
    "add": arithmetic(lambda x, y: integer(x + y), add_numbers),
    "subtract": arithmetic(lambda x, y: integer(x - y), subtract_numbers),
    "multiply": arithmetic(lambda x, y: integer(x * y), multiply_numbers),
    "float_divide": arithmetic(None, divide_numbers),
    "floor_divide": arithmetic(by_zero(lambda x, y: x // y), floor_divide_numbers),
    "modulo": arithmetic(by_zero(lambda x, y: x - y * (x // y)), modulo_numbers),
    "bitwise_and": bits(lambda x, y: x & y),
    "bitwise_or": bits(lambda x, y: x | y),
    "bitwise_xor": bits(lambda x, y: x ^ y),
    "shift_left": bits(shifted),
    "shift_right": bits(lambda x, count: shifted(x, -count)),
    "is_equal": is_equal,
    "less_than": less_than,
    "less_equal": less_equal,
    "past_end": past_end,
}
