"""The documents' answers, where an error tells whom it names: document 02, 5/12, by the table named.txt, and the zero divisors beside it.

Values are those of reference.py, and (5, word) for a function. An answer is reference.py's, but for an error: `1` or `2` is the operator's own, naming
this operand, and `z` that of a zero integer divisor, 45 of `floor_divide` and 46 of `modulo`, which names 2.
"""
import os
import sys
from functools import lru_cache

from reference import INTEGER, NUMBER, OPERATORS, STRING, to_integer

ARITHMETIC = ("negate", "add", "subtract", "multiply", "float_divide", "floor_divide", "modulo")
BITS = ("bitwise_not", "bitwise_and", "bitwise_or", "bitwise_xor", "shift_left", "shift_right")
# `is_equal` and `past_end` have no class: they raise nothing.
ORDER = ("less_than", "less_equal")
CLASSES = {"arithmetic": ARITHMETIC, "bits": BITS, "comparison": ORDER}
CLASS_OF = {operator: name for name, operators in CLASSES.items() for operator in operators}
DIVISIONS = ("floor_divide", "modulo")
ERRORS = ("1", "2", "z")
KINDS = ("nil", "boolean", "integer", "number", "string", "function")


def entries():
    """The table: whom an operator of a class names on operands of these kinds, 0 for none."""
    found, columns = {}, []
    with open(os.path.join(os.path.dirname(os.path.realpath(__file__)), "named.txt")) as file:
        rows = [line.split() for line in file if line.strip() and line[0] != "#"]
    for first, *rest in rows:
        if first in CLASSES:
            name, columns = first, rest
            continue
        for right, entry in zip(columns, rest, strict=True):
            found[name, (first,) if right == "only" else (first, right)] = int(entry)
    return found


TABLE = entries()


def kind_of(value):
    if value[0] == NUMBER:
        return "broken" if to_integer(value) is None else "whole"
    return KINDS[value[0]]


@lru_cache(None)
def taken(value, read):
    """What an operator takes a value for, and the kind that the table has it under. `read` tells what a string reads as: a value, or None; it is None
    itself for an operator that reads no strings."""
    if value[0] != STRING or read is None:
        return value, kind_of(value)
    found = read(value[1])
    return (found, '"%s"' % kind_of(found)) if found else (value, '"none"')


def answer(name, operands, read=None):
    """The documents' answer. Reference and table must agree on whether there is an error."""
    in_class = CLASS_OF.get(name)
    reader = read if in_class in ("arithmetic", "bits") else None
    values, kinds = zip(*[taken(v, reader) for v in operands])
    result = OPERATORS[name](*values)
    who = TABLE[in_class, kinds] if in_class else 0
    by_zero = name in DIVISIONS and values[0][0] == INTEGER and values[1] == (INTEGER, 0)
    if (result == "e") != (who > 0 or by_zero):
        sys.exit("the table says %d of %s %s, the reference %s" % (who, name, operands, result))
    return str(who) if who else "z" if by_zero else result
