"""Values, and what the operators make of them: document 01, "Arithmetic and order"; `Mod` of numbers is document 02's, 3/12.

A value is a kind and a word: nil 0 and 0; boolean 1 and 0 or 1; integer 2 and its 64 bits; number 3 and its 64 bits; string 4 and the number of
its constant in the whole image; function 5 and its closure's entry (machine.py).

`demand_fit` raises Unfit where an operation doesn't take its operands, and alone says which of them is named; what works a value out is asked
after it. The floats are Python's; tools/vectors/reference.py does without them."""
import math
import struct

NIL, BOOLEAN, INTEGER, NUMBER, STRING, FUNCTION = range(6)
ONE_NAN = 0x7FF8000000000000


# ---- making and taking apart

def signed(word):
    return word - 2**64 if word >= 2**63 else word


def double(word):
    return struct.unpack('>d', word.to_bytes(8, 'big'))[0]


def boolean(b):
    return BOOLEAN, int(b)


def integer(n):
    """The integer that n wraps around to."""
    return INTEGER, n % 2**64


def number(x):
    return NUMBER, ONE_NAN if x != x else int.from_bytes(struct.pack('>d', x), 'big')


def truth(value):
    return value[0] != NIL and value != (BOOLEAN, 0)


def is_numeric(value):
    return value[0] in (INTEGER, NUMBER)


def exact(value):
    """An int or a float: Python orders the two by exact value."""
    kind, word = value
    assert is_numeric(value)
    return signed(word) if kind == INTEGER else double(word)


def has_integer(value):
    """Whether it is numeric and its value is an integer of 64 bits."""
    if not is_numeric(value):
        return False
    x = exact(value)
    return isinstance(x, int) or math.isfinite(x) and x == math.floor(x) and -2**63 <= x < 2**63


def whole(value):
    """The integer of a bit operation's operand."""
    return int(exact(value))


# ---- which operand is named: document 02, 5/12

# "1 left or only, 2 right; for loop controls 1 index, 2 limit, 3 step"
LEFT, RIGHT = 1, 2
ONLY = LEFT
INDEX, LIMIT, STEP = 1, 2, 3
MOST_NAMED = STEP


class Unfit(Exception):
    """An operand that an operation doesn't take."""

    def __init__(self, operand):
        super().__init__(operand)
        self.operand = operand


class ZeroDivisor(Exception):
    """An integer zero by which an integer is divided: "both naming 2"."""
    operand = RIGHT


def demand_fit(name, operands):
    """operands: those that an operation looks at, by their numbers and in their order, figures read where it reads them."""
    if name == 'Eq':
        return
    if name in ('Less', 'LessEq'):
        # "a comparison of two kinds that don't go together names 2 when the left is an integer, number or string, else 1"
        left, right = operands[LEFT], operands[RIGHT]
        if not (is_numeric(left) and is_numeric(right) or left[0] == right[0] == STRING):
            raise Unfit(RIGHT if left[0] in (INTEGER, NUMBER, STRING) else LEFT)
        return
    # "A number without an integer is unfit for bit operations"
    fits = has_integer if name in BITWISE or name == 'BitNot' else is_numeric
    # "Operator errors must name the first unfit operand"
    for operand, value in operands.items():
        if not fits(value):
            raise Unfit(operand)


# ---- arithmetic

def divide(x, y):
    if y != 0:
        return x / y
    if x == 0 or x != x:
        return math.nan
    return math.copysign(math.inf, x) * math.copysign(1.0, y)


def remainder(x, y):
    """The exact remainder, with the sign of x."""
    if x != x or y != y or math.isinf(x) or y == 0:
        return math.nan
    return math.fmod(x, y)


def modulo(x, y):
    """The remainder, and y more where the two have strictly opposite signs."""
    r = remainder(x, y)
    return r + y if r < 0 < y or y < 0 < r else r


def floor(x):
    if x != x or math.isinf(x) or x == 0:
        return x
    return float(math.floor(x))


def shift_left(x, n):
    x %= 2**64
    if abs(n) >= 64:
        return 0
    return x << n if n >= 0 else x >> -n


BITWISE = {
    'BitAnd': lambda x, y: x & y,
    'BitOr': lambda x, y: x | y,
    'BitXor': lambda x, y: x ^ y,
    'ShiftLeft': shift_left,
    'ShiftRight': lambda x, n: shift_left(x, -n),
}
OF_INTEGERS = {
    'Add': lambda x, y: x + y,
    'Sub': lambda x, y: x - y,
    'Mul': lambda x, y: x * y,
    'IDiv': lambda x, y: x // y,
    'Mod': lambda x, y: x - y * (x // y),
}
OF_NUMBERS = {
    'Add': lambda x, y: x + y,
    'Sub': lambda x, y: x - y,
    'Mul': lambda x, y: x * y,
    'Div': divide,
    'IDiv': lambda x, y: floor(divide(x, y)),
    'Mod': modulo,
}


def binary(name, left, right):
    """What an operator makes of two values that it takes."""
    if name in BITWISE:
        return integer(BITWISE[name](whole(left), whole(right)))
    x, y = exact(left), exact(right)
    if name in OF_INTEGERS and left[0] == right[0] == INTEGER:
        if name in ('IDiv', 'Mod') and y == 0:
            raise ZeroDivisor
        return integer(OF_INTEGERS[name](x, y))
    return number(OF_NUMBERS[name](float(x), float(y)))


def unary(name, value):
    if name == 'Move':
        return value
    if name == 'Not':
        return boolean(not truth(value))
    if name == 'BitNot':
        return integer(~whole(value))
    x = exact(value)
    return integer(-x) if value[0] == INTEGER else number(-x)


# ---- equality and order; text: the bytes of a string's word

def equal(left, right, text):
    if is_numeric(left) and is_numeric(right):
        return exact(left) == exact(right)
    if left[0] != right[0]:
        return False
    if left[0] == STRING:
        return text(left[1]) == text(right[1])
    return left[1] == right[1]


def compared(name, left, right, text):
    """Whether Eq, Less or LessEq holds."""
    if name == 'Eq':
        return equal(left, right, text)
    if left[0] == right[0] == STRING:
        x, y = text(left[1]), text(right[1])
    else:
        x, y = exact(left), exact(right)
    return x < y if name == 'Less' else x <= y


def past_end(index, limit, step):
    return exact(index) < exact(limit) if exact(step) < 0 else exact(limit) < exact(index)
