"""An answer of the program in words: how the run ended and what it returned, or why the image wasn't run.

    explained(answer, image, functions)     the text; answer, image: the bytes that the program wrote and read; functions: as for `listed`

The answer has to be one that this image can have: else NotExplained."""
import struct
from collections import namedtuple

from flow import ENTRY, Flow
from listing import SIGNS, instruction_line, value
from luac_image import decoded as decoded_word
from oracle.answers import (BAD_ARGUMENTS, BAD_END, BAD_FRAME, BAD_LINE, DONE, FEW_CELLS, NO_CONSTANT, NO_ENTRY, NO_FUNCTION, NO_PROTOTYPE,
                            NO_REGISTER, NO_TARGET, NO_UPVALUE, NOT_CARRIED, RUNNING, STRAY_BYTE, TOO_DEEP, TOO_MANY, TOO_WIDE, UNFIT_OPERAND, ZERO_DIVISOR)
from oracle.image import CONSTANT, LINE, PAYLOAD, Refused, parse
from oracle.rules import BINARY, COMPARISONS, OPERATIONS, check
from oracle.values import BITWISE, BOOLEAN, FUNCTION, INDEX, LEFT, LIMIT, ONLY, RIGHT, STEP

UNREAD = {
    BAD_LINE: 'a line that is empty, not paired lowercase hexadecimal, or not ended by LF',
    BAD_FRAME: 'an unknown kind, or a wrong length, tag, order or field',
    TOO_MANY: 'too many bytes, prototypes, descriptors, constants or instructions',
    BAD_END: 'no e0 line at the end, or a byte after it',
}
UNCHECKED = {
    NOT_CARRIED: "an operation that isn't carried, or a count of 255",
    STRAY_BYTE: "an unused byte or flag that isn't 0, or a yes/no byte above 1",
    NO_REGISTER: "a register that the prototype doesn't have",
    NO_CONSTANT: "a constant that the prototype doesn't have",
    NO_TARGET: "the next instruction may be one that isn't there",
    NO_PROTOTYPE: "a prototype that isn't in the image",
    NO_UPVALUE: "an upvalue or a descriptor that isn't there, or descriptors of prototype 0",
}
REFUSALS = {**UNREAD, **UNCHECKED}
OF_CALLS = {
    NO_FUNCTION: 'a call of what is no function',
    TOO_DEEP: 'more than 16 calls inside one another, the main program counted',
    TOO_WIDE: 'a call that would pass 2,048 registers in all running functions',
}
OF_CLOSURES = {
    NO_ENTRY: 'more than 64 functions made',
    FEW_CELLS: 'more than 128 variables that functions hold',
}
LOOPS = ('NumericForPrep', 'NumericForLoop')
# luac turns a > b into b < a: what the machine names is then on the other side in the source.
TURNED = {'Less': '>', 'LessEq': '>='}


class NotExplained(Exception):
    """A line of the answer, counted from 1, and why it can't be explained."""


# ---- the answer's lines

RESULT = 0xF0
Result = namedtuple('Result', 'number count prototype instruction operand')
RESULT_BYTES = struct.Struct('>xBIBHB')
# What is answered to arguments that the machine doesn't take.
NOT_STARTED = Result(BAD_ARGUMENTS, 0, 0, 0, 0)


def is_value(data):
    """Whether these bytes are a value's, from the tag on."""
    if data[:1] == bytes([FUNCTION]):
        return len(data) == 2
    return data != b'' and data[0] in PAYLOAD and len(data) - 1 in PAYLOAD[data[0]] and not (data[0] == BOOLEAN and data[1] > 1)


def decoded(answer):
    """The result, and the bytes of each value from its tag on."""
    lines = answer.splitlines()
    for at, line in enumerate(lines, 1):
        if not LINE.fullmatch(line):
            raise NotExplained(at, 'a line that is empty or not paired lowercase hexadecimal')
    first, *values = [bytes.fromhex(line.decode()) for line in lines] or [b'']
    if first[:1] != bytes([RESULT]) or len(first) != RESULT_BYTES.size:
        raise NotExplained(1, 'an answer begins with a line of %d digits, f0 the first two' % (2 * RESULT_BYTES.size))
    for at, line in enumerate(values, 2):
        if line[0] != CONSTANT or not is_value(line[1:]):
            raise NotExplained(at, 'not a value: b0, its kind from 00 to 05, and as many bytes as the kind has')
    return Result(*RESULT_BYTES.unpack(first)), [line[1:] for line in values]


# ---- an image that isn't run

def refusal(image):
    """The result of an image that isn't run; None where it is."""
    try:
        number, q, p = check(parse(image))
    except Refused as refused:
        number, line = refused.args
        q, p = 0, line
    return Result(number, 0, q, p, 0) if number != DONE else None


def why_refused(result, image):
    number, _, q, p, _ = result
    if number in UNREAD:
        return 'not an image: line %d counted from 0, %s\n' % (p, UNREAD[number])
    prototypes = parse(image)
    if not prototypes:
        return 'refused by the checker with %d: there is no prototype\n' % number
    if not prototypes[q].instructions:
        return 'refused by the checker with %d: prototype %d has no instructions\n' % (number, q)
    return 'refused by the checker with %d: %s\n' % (number, UNCHECKED[number]) + instruction_line(prototypes, q, p) + '\n'


# ---- an image that is run

def operands(name):
    """What an error of this operation can name, in words."""
    sign = SIGNS.get(name)
    if name in ('Minus', 'BitNot'):
        return {ONLY: 'the operand of `%s`' % sign}
    if name in TURNED:
        return {LEFT: 'the left side of `%s` (the right side of `%s`)' % (sign, TURNED[name]),
                RIGHT: 'the right side of `%s` (the left side of `%s`)' % (sign, TURNED[name])}
    if name in BINARY:
        return {LEFT: 'the left side of `%s`' % sign, RIGHT: 'the right side of `%s`' % sign}
    if name == 'NumericForPrep':
        return {INDEX: 'the start of the `for`', STEP: 'the step of the `for`'}
    if name == 'NumericForLoop':
        return {INDEX: 'the index of the `for`', LIMIT: 'the limit of the `for`', STEP: 'the step of the `for`'}
    return {}


def unfit(name):
    """What is wrong with an operand that this operation doesn't take."""
    if name in COMPARISONS:
        return "can't be compared with the other side"
    if name in BITWISE or name == 'BitNot':
        return 'has no integer'
    if name in BINARY or name == 'Minus':
        return "isn't a number, nor a string that reads as one"
    return "isn't a number"


def local(function, p, register):
    """The local that owns a register at instruction p; None where none does."""
    in_scope = function.in_scope(p)
    return function.locals[in_scope[register]][0] if register < len(in_scope) else None


def origin(function, p, register):
    """The variable from which the value of a register comes that none owns at instruction p; None where that isn't one alone."""
    found = Flow(function).definitions(p, register)
    if len(found) != 1 or ENTRY in found:
        return None
    place, = found
    name, _, b, _ = decoded_word(function.code[place])
    if name == 'GETUPVAL':
        return function.upvalue_names[b]
    return function.put_in.get(place) or (local(function, place, b) if name == 'MOVE' else None)


def variable(function, p, register):
    """What the source calls the value of a register at instruction p, between backquotes; '' where it has no name, or where there is no source."""
    name = function and (local(function, p, register) or origin(function, p, register))
    return '`%s`' % name.decode('utf-8', 'replace') if name else ''


def shown(five, p, operand, constants, function):
    """The operand where it is a constant or a variable of the source; '' where it is neither. A loop's controls are copies, which have no names."""
    if OPERATIONS[five.operation] in LOOPS:
        return ''
    flag, number = {LEFT: (1, five.b), RIGHT: (2, five.c)}[operand]
    if five.flags & flag:
        return value(constants[number])
    return variable(function, p, number)


def error(result, five, constants, function):
    """A Lua error in words; None where this instruction can't have raised it. function: luac's, where there is a source."""
    number, operand = result.number, result.operand
    name = OPERATIONS[five.operation]
    if name == 'Call' and operand == 0:
        called = variable(function, result.instruction, five.a) if number == NO_FUNCTION else ''
        return ', '.join(filter(None, [OF_CALLS.get(number), called])) or None
    if name == 'Closure' and operand == 0:
        return OF_CLOSURES.get(number)
    if operand not in operands(name):
        return None
    it = shown(five, result.instruction, operand, constants, function)
    named = operands(name)[operand] + (', %s,' % it if it else '')
    if number == UNFIT_OPERAND[name]:
        return '%s %s' % (named, unfit(name))
    return named + ' is zero' if operand == RIGHT and number == ZERO_DIVISOR.get(name) else None


def counted(n, what):
    return '%s %s%s' % (n or 'no', what, '' if n in (0, 1) else 's')


def returned(at, data, prototypes, functions):
    """The value in a line of the answer, as Lua writes it."""
    if data[0] != FUNCTION:
        return value(data)
    q = data[1]
    if q >= len(prototypes):
        raise NotExplained(at, 'there is no prototype %d in this image: the answer is for another one' % q)
    return 'function %d' % q + (' (line %d)' % functions[q].line if functions and q else '')


def how_it_ended(result, values, prototypes, functions):
    number, count, q, p, operand = result
    if result == NOT_STARTED and not values:
        return "the arguments are refused: more than 8, or one that isn't nil, a boolean, an integer or a number"
    if q >= len(prototypes) or p >= len(prototypes[q].instructions):
        raise NotExplained(1, 'there is no place %d:%d in this image: the answer is for another one' % (q, p))
    five, constants = prototypes[q].instructions[p], prototypes[q].constants
    where = 'line %d' % functions[q].lines[p] if functions else 'place %d:%d' % (q, p)
    if number == DONE and operand == 0 and OPERATIONS[five.operation] == 'Return' and five.b == len(values):
        end = 'finished after %s, at %s: %s' % (counted(count, 'instruction'), where, counted(len(values), 'value'))
        return '\n'.join([end, *(returned(at, data, prototypes, functions) for at, data in enumerate(values, 2))])
    if number == RUNNING and operand == 0 and not values:
        return 'the budget is used up after %s; next is %s' % (counted(count, 'instruction'), where)
    words = error(result, five, constants, functions[q] if functions else None)
    if words is None or values:
        raise NotExplained(1, 'answer %d at place %d:%d, operand %d, with %s, is none that this image can have: it is for another one'
                           % (number, q, p, operand, counted(len(values), 'value')))
    return '%s: %s' % (where, words)


def explained(answer, image, functions=None):
    result, values = decoded(answer)
    refused = refusal(image)
    if refused:
        if result != refused or values:
            raise NotExplained(1, 'this image is refused with %d: the answer is for another one' % refused.number)
        return why_refused(refused, image)
    if result.number in REFUSALS:
        raise NotExplained(1, 'answer %d refuses an image (%s), and this one is run: the answer is for another one' % (
            result.number, REFUSALS[result.number]))
    return how_it_ended(result, values, parse(image), functions) + '\n'
