"""Where the Rust differs from the documents, by operator and operands: RULES, each with the cause in words.

Most are those of document 01's section "Where the Rust misleads"; docs/DIFFERENCES.md has them all. A rule holds just
where its cause is at work, so that a difference without a rule is one that nobody knows of. Operators have the names of
reference.py, and its values: (kind, word), or (4, bytes). What the Rust makes of a string where an operator reads it as a
figure is in ../whole/texts.py. Behind the rules: where Lua differs.
"""
import reference
from named import BITS, ORDER
from reference import INTEGER, NUMBER, STRING, TOP, add_numbers, remainder, signed

SIGN = {
    "negate": "-", "bitwise_not": "~", "add": "+", "subtract": "-", "multiply": "*", "float_divide": "/",
    "floor_divide": "//", "modulo": "%", "bitwise_and": "&", "bitwise_or": "|", "bitwise_xor": "~", "shift_left": "<<",
    "shift_right": ">>", "is_equal": "==", "less_than": "<", "less_equal": "<=", "NumericForLoop": ",",
    "NumericForPrep": ",",
}


# In words.

def shown(value):
    kind, word = value
    if kind == STRING:
        return '"%s"' % "".join(chr(b) if 32 <= b < 127 and chr(b) not in '"\\|' else "\\%03d" % b for b in word)
    if kind == INTEGER:
        return str(signed(word))
    if kind == NUMBER:
        if reference.is_nan(word):
            return "nan"
        if reference.is_infinite(word):
            return "-inf" if reference.negative(word) else "inf"
        q = reference.exact(word)
        whole = q.denominator == 1 and abs(q) < 10**30
        return "%s%d.0" % ("-" if reference.negative(word) else "", abs(q)) if whole else repr(float(q))
    return {0: "nil", 1: "true" if word else "false", 5: "function"}[kind]


def shown_vector(name, operands):
    texts, sign = [shown(v) for v in operands], SIGN[name].replace("|", "\\|")
    return sign + texts[0] if len(texts) == 1 else (", " if sign == "," else " %s " % sign).join(texts)


# The rules.

def kinds(operands):
    return [v[0] for v in operands]


def truncates(name, operands):
    if name != "floor_divide" or kinds(operands) != [INTEGER, INTEGER]:
        return False
    a, b = (signed(v[1]) for v in operands)
    return (a < 0) != (b < 0) and a % b != 0


def has_no_quotient(name, operands):
    return name == "modulo" and operands == [(INTEGER, 2**63), (INTEGER, 2**64 - 1)]


def overflows(name, operands):
    if name != "modulo" or kinds(operands) != [INTEGER, INTEGER]:
        return False
    a, b = (signed(v[1]) for v in operands)
    rest = abs(a) % abs(b) * (-1 if a < 0 else 1)
    return not -2**63 <= rest + b < 2**63


def apart_by_formula(name, operands):
    """The two numbers of a `%` to which the Rust's ((a % b) + b) % b gives another number than document 02, or None."""
    if name != "modulo" or kinds(operands) == [INTEGER, INTEGER] or not all(map(reference.is_numeric, operands)):
        return None
    x, y = map(reference.to_number, operands)
    formula = remainder(add_numbers(remainder(x, y), y), y)
    return None if formula == reference.modulo_numbers(x, y) else (x, y)


def divides_infinity(name, operands):
    """b + a is b, and an infinity has no remainder."""
    pair = apart_by_formula(name, operands)
    return pair is not None and reference.is_infinite(pair[1])


def sum_is_infinite(name, operands):
    pair = apart_by_formula(name, operands)
    return pair is not None and reference.is_infinite(add_numbers(remainder(*pair), pair[1]))


def zero_turns(name, operands):
    """b % b is a zero with the sign of b."""
    pair = apart_by_formula(name, operands)
    return pair is not None and remainder(*pair) % TOP == 0


def sum_rounds(name, operands):
    return apart_by_formula(name, operands) is not None


def takes_two_to_63(name, operands):
    return name.startswith(("bitwise", "shift")) and (NUMBER, 0x43E0000000000000) in operands


def is_rounded(value):
    """Whether it is an integer that no number has."""
    return value[0] == INTEGER and reference.exact(reference.to_number(value)) != signed(value[1])


def rounds_first(name, operands):
    if name not in ("is_equal", "less_than", "less_equal") or sorted(kinds(operands)) != [INTEGER, NUMBER]:
        return False
    return any(is_rounded(v) for v in operands)


def shifts_far(name, operands):
    if not name.startswith("shift"):
        return False
    count = reference.to_integer(operands[1])
    return count is not None and not 0 <= count < 64


def turns_to_numbers(name, operands):
    return name == "NumericForLoop" and kinds(operands) == [INTEGER, NUMBER, INTEGER]


def rounds_limit(name, operands):
    return name == "NumericForLoop" and NUMBER in kinds(operands) and is_rounded(operands[1])


def index_overflows(name, operands):
    if name != "NumericForLoop" or kinds(operands) != [INTEGER, INTEGER, INTEGER]:
        return False
    return not -2**63 <= signed(operands[0][1]) + signed(operands[2][1]) < 2**63


RULES = [
    (truncates, "`floor_divide` uses `wrapping_div`: it rounds toward zero"),
    (has_no_quotient, "`modulo` panics at W4"),
    (overflows, "`modulo` overflows at W5, in (a % b) + b"),
    (divides_infinity, "`modulo` of numbers is ((a % b) + b) % b: NaN by an infinity"),
    (sum_is_infinite, "`modulo` of numbers is ((a % b) + b) % b: NaN where the sum is too large for a number"),
    (zero_turns, "`modulo` of numbers is ((a % b) + b) % b: a zero has the sign of b"),
    (sum_rounds, "`modulo` of numbers is ((a % b) + b) % b: the sum rounds before its remainder is taken"),
    (takes_two_to_63, "`to_integer` accepts 2^63"),
    (rounds_first, "mixed comparison rounds first (W8)"),
    (shifts_far, "a shift isn't defined below 0 or past 63"),
    (turns_to_numbers, "an integer loop with a limit that is a number turns to floats"),
    (rounds_limit, "a loop of numbers rounds an integer limit first"),
    (index_overflows, "an integer loop's index + step overflows"),
]


# Lua.

AGREED = "the same operand"
ORDER_OF_TESTS = "a bit operation looks for an operand that isn't a number before it looks for one without an integer"
COMPARED = "a comparison's message has the kinds of both operands and names neither"


def named_by_lua(name, operands):
    """Whom Lua names where an operator raises on these operands: `1` or `2`; `z` for a zero divisor; `e` for none. And the cause where document 02
    names another."""
    if name in ORDER:
        return "e", COMPARED
    no_number = [str(place) for place, v in enumerate(operands, 1) if not reference.is_numeric(v)]
    no_integer = [str(place) for place, v in enumerate(operands, 1) if name in BITS and reference.to_integer(v) is None]
    cause = ORDER_OF_TESTS if no_number and no_integer and no_number[0] != no_integer[0] else None
    return (no_number or no_integer or ["z"])[0], cause


def product_vanishes(x, y):
    """Whether Lua 5.3 leaves out the `+ b` of document 02's `%` of two numbers. It asks whether remainder times divisor is
    below zero, and under strictly opposite signs that product may round to zero."""
    r = remainder(x, y)
    return reference.opposed(r, y) and reference.multiply_numbers(r, y) % TOP == 0
