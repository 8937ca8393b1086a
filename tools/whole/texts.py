"""Where the Rust and document 02's request 1/12 part on a string under an operator, and why.

    cause(name, operands)       the cause in words, or None: the names of reference.py, values as there, (4, bytes) for a string
    figured(name, operands)     the operands as the operator takes them here

Arithmetic in the Rust asks `read_float` for a string; bit operations ask `read_integer` and then `read_float`. A cause holds just where it is at
work: the operands are looked at from the left, as the Rust does."""
import re

from oracle.figures import figure
from oracle.values import INTEGER, STRING

ARITHMETIC = ('add', 'subtract', 'multiply', 'float_divide', 'floor_divide', 'modulo', 'negate')
BITWISE = ('bitwise_not', 'bitwise_and', 'bitwise_or', 'bitwise_xor', 'shift_left', 'shift_right')

PAST_END = '`read_hex_integer` reads past the end of "", "0" and a sign alone'
BLANKS = 'blanks around a figure are not read'
WRAPS = 'a 0x integer past 63 bits does not wrap'
ROUNDS = '`read_hex_float` rounds at every digit'
MORE = 'a string outside the set is read'
KIND = 'a string that reads as an integer becomes a float in arithmetic'
CONVERTS = 'a comparison and a loop convert strings to numbers'
CAUSES = [KIND, BLANKS, WRAPS, ROUNDS, MORE, PAST_END, CONVERTS]

# What the Rust's f64 takes of a text, and what `read_hex_float` does; `read_hex_integer` takes 0x alone too.
DECIMAL = re.compile(rb'[+-]?(?:(?:[0-9]+\.?[0-9]*|\.[0-9]+)(?:[eE][+-]?[0-9]+)?|(?i:inf|infinity|nan))')
HEXADECIMAL = re.compile(rb'[+-]?0[xX](?=\.?[0-9a-fA-F])[0-9a-fA-F]*\.?[0-9a-fA-F]*(?:[pP](?=.)[+-]?[0-9]*)?')
NO_DIGITS = re.compile(rb'[+-]?0[xX]')
WHOLE_HEXADECIMAL = re.compile(rb'[+-]?0[xX]([0-9a-fA-F]+)')


def is_read(name, text):
    """Whether the Rust makes a number of a text."""
    return bool(DECIMAL.fullmatch(text) or HEXADECIMAL.fullmatch(text) or name in BITWISE and NO_DIGITS.fullmatch(text))


def digit_by_digit(digits):
    x = 0.0
    for digit in digits.decode():
        x = x * 16.0 + int(digit, 16)
    return x


def reading(name, text):
    """Why the Rust reads another value, or None where it reads the same: an integer as the number that it becomes."""
    if name in BITWISE and re.fullmatch(rb'[-+]?0?', text):
        return PAST_END
    if figure(text) is None:
        return MORE if is_read(name, text) else None
    if not is_read(name, text):
        return BLANKS
    found = WHOLE_HEXADECIMAL.fullmatch(text)
    if found and int(found[1], 16) >= 2**63:
        return WRAPS
    if found and name in ARITHMETIC and digit_by_digit(found[1]) != float(int(found[1], 16)):
        return ROUNDS
    return None


def figured(name, operands):
    if name not in ARITHMETIC + BITWISE:
        return operands
    return [figure(word) or (kind, word) if kind == STRING else (kind, word) for kind, word in operands]


def cause(name, operands):
    texts = [word for kind, word in operands if kind == STRING]
    if not texts or name == 'is_equal' or name in ('less_than', 'less_equal') and len(texts) == 2:
        return None
    if name not in ARITHMETIC + BITWISE:
        return CONVERTS
    for text in texts:
        why = reading(name, text)
        if why:
            return why
    if name in ARITHMETIC and name != 'float_divide' and all(kind == INTEGER for kind, _ in figured(name, operands)):
        return KIND
    return None
