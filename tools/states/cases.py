#!/usr/bin/env python3
"""Cases of starting and running, and what must be answered and left.

    python3 tools/states/cases.py              writes crates/states/stdin and crates/states/stdout
    python3 tools/states/cases.py --check      writes nothing, and fails where one of the two is stale

Every answer is written by hand beside its case or follows from a rule or a table that is; tools/oracle, which was written from the documents and
shares nothing with the proved machine, must agree with it, or the script stops. What is left comes from the oracle alone, but for the figures and
for the marks of what has ended, which are written by hand too."""
import os
import sys
from itertools import product

sys.dont_write_bytecode = True
sys.path.insert(1, os.path.join(os.path.dirname(os.path.realpath(__file__)), '..'))
from oracle.image import Instruction, Prototype, packed, payload, printed
from oracle.kept import checking, keep
from oracle.machine import SIZES, Machine, framed
from oracle.rules import NUMBER_OF
from oracle.values import double, integer as i, number as f

LIST = []
ANSWERS = []
RUNS = [0]

# What crates/states/src/main.rt reads of its standard input.
MOST_BYTES = 1048576
SLICES = dict(zip('tckwxfrv', SIZES))
STATE = 'frv'
ALL = '1' * 8
MOST = 2**64 - 1


# ---- values and constants

def bits(word):
    return 3, word


def s(constant):
    return 4, constant


def fn(entry):
    return 5, entry


NIL, FALSE, TRUE = (0, 0), (1, 0), (1, 1)
SMALLEST, LARGEST = -2**63, 2**63 - 1
NAN = bits(0x7ff8000000000000)
OTHER_NAN = bits(0xfff0000000000123)
INF = float('inf')


def const(value):
    """A constant of an image: a value, or a text."""
    if isinstance(value, bytes):
        return b'\4' + value
    kind, word = value
    return bytes([kind]) + payload(kind, word)


# ---- instructions and prototypes

def op(name, *operands, flags=0):
    """An instruction's five bytes; an index or an offset is one operand."""
    operation = NUMBER_OF[name] if isinstance(name, str) else name
    operands = list(operands)
    if name == 'Jump' and len(operands) == 1:
        operands.insert(0, 255)
    if name in ('Jump', 'LoadConstant', 'NumericForPrep', 'NumericForLoop'):
        wide = operands.pop() % 65536
        operands += [wide // 256, wide % 256]
    return Instruction(operation, flags, *operands, *[0] * (3 - len(operands)))


def proto(registers, parameters, constants, code, descriptors=()):
    return Prototype(registers, parameters, [const(value) for value in constants], code, descriptors)


RETURN = op('Return', 0, 0)


# ---- a case

# Operator errors, which name an operand, and those of Call and Closure, which don't.
OPERATOR_ERRORS = range(30, 47)
LUA_ERRORS = (*OPERATOR_ERRORS, 50, 51, 52, 53, 54)

# ---- where closures stand in the state

# A word for each activation's closure; then 64 entries of 9 words, the prototype and 8 cells; then 128 cells. Their values stand behind the registers.
HELD, ENTRIES, ENTRY, CELLS, END, VALUES, VALUES_END = 34, 50, 9, 626, 754, 2308, 2436


def entry_at(e):
    return ENTRIES + ENTRY * e


def whole(expected):
    """A run's answer with its operand: 0 where it isn't written. An operator error's is."""
    if len(expected) != 4:
        return expected or None
    assert expected[0] not in OPERATOR_ERRORS, expected
    return (*expected, 0)


class Case:
    def __init__(self, name, protos):
        self.machine = m = Machine(state=0x5a, beyond=1)
        m.frames[ENTRIES:END] = [0] * (END - ENTRIES)
        m.kinds[VALUES:VALUES_END] = m.words[VALUES:VALUES_END] = [0] * (VALUES_END - VALUES)
        self.protos = protos
        image = printed(protos)
        assert '#' not in name
        LIST.append('# %s\n%s<\n' % (name, image))
        ANSWERS.append('# %s\n' % name)
        assert self.with_lent(ALL, lambda m: m.read(image)) == (0, len(protos)), name
        self.name = name

    def with_lent(self, lend, act):
        """Acts on the slices as they are lent: one cell short (0), as published (1), or one longer (2)."""
        rest = self.machine.lend(lend)
        answer = act(self.machine)
        for slice, cells in rest.items():
            getattr(self.machine, slice).extend(cells)
        return answer

    def answered(self, sign, line, expected, lend, act):
        """A start or a run: its answer and every cell of the state that is another than before."""
        before = {letter: list(getattr(self.machine, SLICES[letter])) for letter in STATE}
        got = self.with_lent(lend, act)
        assert expected is None or got == expected, (self.name, line, got, expected)
        LIST.append(line + '\n')
        words = [sign] + ['%d' % x for x in got]
        for letter in STATE:
            now = getattr(self.machine, SLICES[letter])
            words += ['%s%x:%x' % (letter, at, x) for at, (x, old) in enumerate(zip(now, before[letter])) if x != old]
        ANSWERS.append(' '.join(words) + '\n')
        RUNS[0] += 1
        return got

    def set(self, letter, at, value):
        LIST.append('=%s%x:%x\n' % (letter, at, value))
        cells = getattr(self.machine, SLICES[letter])
        old, cells[at] = cells[at], value
        return letter, at, old

    def clear(self):
        """Every cell of the state becomes 0: all registers nil."""
        LIST.append('0\n')
        for letter in STATE:
            slice = SLICES[letter]
            setattr(self.machine, slice, [0] * len(getattr(self.machine, slice)))

    def becomes(self, letter, at, x):
        """A cell is set where it holds something else."""
        if getattr(self.machine, SLICES[letter])[at] != x:
            self.set(letter, at, x)

    def entry(self, e, prototype, *cells):
        """A closure entry that is in use."""
        words = [prototype + 1, *[cell + 1 for cell in cells]]
        for at, x in enumerate(words + [0] * (ENTRY - len(words)), entry_at(e)):
            self.becomes('f', at, x)

    def entry_of(self, prototype):
        """An entry of a prototype that has no descriptors: one that is there, or the first free one from its own number on."""
        held = [self.machine.frames[entry_at(e)] for e in range(64)]
        if prototype + 1 in held:
            return held.index(prototype + 1)
        e = held.index(0, prototype)
        self.entry(e, prototype)
        return e

    def at(self, *places, mark=70):
        """The mark and the activations; each but the outermost with a closure of its prototype, where that is there and has no descriptors."""
        for at, x in enumerate(framed(mark, *places)):
            self.becomes('f', at, x)
        self.becomes('f', HELD, 0)
        for at, (prototype, _) in enumerate(places[1:], HELD + 1):
            if prototype < len(self.protos) and not self.protos[prototype].descriptors:
                self.becomes('f', at, self.entry_of(prototype) + 1)

    def put(self, *values, first=0):
        """Registers from `first` on. Where a function's entry is free, it becomes one of the prototype of the same number."""
        for kind, word in values:
            if kind == 5 and word < len(self.protos) and not self.machine.frames[entry_at(word)]:
                self.entry(word, word)
        for at, (kind, word) in enumerate(values, first):
            self.becomes('r', at, kind)
            self.becomes('v', at, word)

    def start(self, expected, *arguments, lend=ALL, kinds=None, words=None):
        """kinds, words: how many are lent, where not as many as there are arguments."""
        n = len(arguments) if kinds is None else kinds
        m = len(arguments) if words is None else words
        line = '>%s:%x%x' % (lend, n, m) + ''.join('%02x%016x' % argument for argument in arguments)
        # Where a kind or a word is missing there is no value.
        seen = list(arguments[:min(n, m)]) + [(255, 0)] * abs(n - m)

        def act(machine):
            number, q, p = machine.start(seen)
            return (number, q, p) if number else (0,)
        self.answered('>', line, (0,) if expected == 0 else expected, lend, act)

    def run(self, budget, *expected, lend=ALL):
        """expected: number, count, prototype, instruction and operand, as in `whole`."""
        got = self.answered('!', '!%s:%08x' % (lend, budget), whole(expected), lend, lambda m: m.run(budget))
        number, count, _, _, operand = got
        if number in (0, *LUA_ERRORS) and count:
            self.keeps(number, operand)
        return got

    def keeps(self, number, operand):
        """The number and the operand that the mark has: nothing is written to the list."""
        assert self.machine.frames[0] == number + 256 * operand, (self.name, self.machine.frames[0], number, operand)

    def goes_on(self, at):
        """A comparison at instruction `at` that raises nothing."""
        number, count, q, p, operand = self.run(1)
        assert (number, count, q, operand) == (70, 1, 0, 0) and p in (at + 1, at + 2), (self.name, number, p)

    def holds(self, *values, first=0):
        """Registers from `first` on, written by hand: nothing is written to the list."""
        got = [(self.machine.kinds[at], self.machine.words[at]) for at in range(first, first + len(values))]
        assert got == list(values), (self.name, got, values)

    def made(self, e, prototype, *cells):
        """Closure entry e, written by hand: nothing is written to the list."""
        words = [prototype + 1, *[cell + 1 for cell in cells]]
        got = self.machine.frames[entry_at(e):entry_at(e + 1)]
        assert got == words + [0] * (ENTRY - len(words)), (self.name, got)

    def free(self, entries, cells):
        """From these numbers on all entries and cells are free and zero: nothing is written to the list."""
        m = self.machine
        assert not any(m.frames[entry_at(entries):CELLS] + m.frames[CELLS + cells:END] + m.kinds[VALUES + cells:VALUES_END]), self.name

    def opened(self, *registers, first=0):
        """Cells from `first` on are open on these registers: nothing is written to the list."""
        got = self.machine.frames[CELLS + first:CELLS + first + len(registers)]
        assert got == [2 + r for r in registers], (self.name, got)

    def closed(self, *values, first=0):
        """Cells from `first` on are closed over these values: nothing is written to the list."""
        got = self.machine.frames[CELLS + first:CELLS + first + len(values)]
        assert got == [1] * len(values), (self.name, got)
        self.holds(*values, first=VALUES + first)

    def cells(self, *words, first=0):
        """Cells from `first` on become this: 0 free, 1 closed, 2 + r open on register r."""
        for at, word in enumerate(words, CELLS + first):
            self.becomes('f', at, word)

    def stands(self, *expected, lend=ALL):
        return self.answered('?', '?%s' % lend, whole(expected), lend, lambda m: m.run(0))


# ---- starts

def starts():
    four = [proto(4, 2, [], [op('Return', 0, 4)])]
    for parameters in (0, 2, 4):
        case = Case('start: %d parameters of 4 registers, 0 to 9 arguments' % parameters, [proto(4, parameters, [], [op('Return', 0, 4)])])
        for n in range(9):
            case.start(0, *[i(16 + k) for k in range(n)])
        case.start((20, 0, 0), *[i(16 + k) for k in range(9)])
        case.run(1, 0, 1, 0, 0)
    case = Case('start: 255 registers, all of them parameters, 8 arguments', [proto(255, 255, [], [op('Return', 0, 0)])])
    case.start(0, *[i(1)] * 8)
    case.run(1, 0, 1, 0, 0)
    case = Case('start: one register, no parameter', [proto(1, 0, [], [op('Return', 0, 1)])])
    case.start(0, i(5))
    case.run(1, 0, 1, 0, 0)
    case = Case('start: arguments of every kind that may be', [proto(8, 8, [], [op('Return', 0, 8)])])
    case.start(0, NIL, FALSE, TRUE, i(SMALLEST), i(LARGEST), f(-0.0), OTHER_NAN, f(INF))
    case.run(1, 0, 1, 0, 0)

    names = list(SLICES.values())
    for at, slice in enumerate(names):
        case = Case('start: 5, %s one cell short, and one cell longer' % slice, four)
        case.start((5, 0, 0), i(1), lend=ALL[:at] + '0' + ALL[at + 1:])
        case.start(0, i(1), lend=ALL[:at] + '2' + ALL[at + 1:])
        case.run(1, 0, 1, 0, 0)
    bad = [proto(4, 0, [], [op(39)])]
    case = Case('start: 5 before 6, 10 and 20', bad)
    case.set('t', 1, 0)
    for at in (1, 5, 7):
        case.start((5, 0, 0), *[NIL] * 9, lend=ALL[:at] + '0' + ALL[at + 1:])
    case = Case('start: 6 before 10 and 20', bad)
    letter, at, old = case.set('t', 1, 0)
    case.start((6, 0, 0), *[NIL] * 9)
    case.set(letter, at, old)
    case.start((10, 0, 0), *[NIL] * 9)
    case.start((10, 0, 0))

    good = proto(4, 0, [NIL], [op('Move', 0, 1), RETURN])
    for number, what, five in BROKEN:
        case = Case('start: %d before 20, %s' % (number, what), [good, proto(4, 0, [NIL], [op('Move', 0, 1), five, RETURN])])
        case.start((number, 1, 1))
        case.start((number, 1, 1), fn(0))
    case = Case('start: 14, a prototype without instructions', [good, proto(1, 0, [], [])])
    case.start((14, 1, 0), *[NIL] * 9)
    case = Case('start: 15, no prototype', [])
    case.start((15, 0, 0), *[NIL] * 9)
    case.start((15, 0, 0))

    several = [proto(2, 1, [b'a'], [op('Return', 0, 2)]), proto(1, 0, [], [RETURN])]
    for what, arguments in (
            ('9 nils', [NIL] * 9), ('a string', [s(0)]), ('a function', [fn(1)]), ('boolean 2', [(1, 2)]), ('boolean 2^64 - 1', [(1, MOST)]),
            ('nil with a word', [(0, 1)]), ('kind 6', [(6, 0)]), ('kind 255', [(255, 0)]), ('a bad one that would drop', [i(1), i(2), s(0)]),
            ('a bad eighth', [i(1)] * 7 + [fn(0)]), ('a bad first of 9', [fn(0)] + [NIL] * 8)):
        case = Case('start: 20, %s' % what, several)
        case.start((20, 0, 0), *arguments)
        case.start(0, i(3))
        case.start((20, 0, 0), *arguments)
        case.run(1, 0, 1, 0, 0)
    case = Case('start: 20, kinds and words of different lengths', several)
    case.start((20, 0, 0), i(1), kinds=1, words=0)
    case.start((20, 0, 0), NIL, kinds=0, words=1)
    case.start((20, 0, 0), *[NIL] * 3, kinds=3, words=2)
    case.start((20, 0, 0), *[NIL] * 3, kinds=2, words=3)
    case.start((20, 0, 0), *[i(1)] * 9, kinds=8, words=9)
    case.start((20, 0, 0), *[i(1)] * 9, kinds=9, words=8)
    case.start(0, *[i(1)] * 8)
    case.start(0, kinds=0, words=0)

    case = Case('start: a machine that runs in its third activation starts again', NESTED)
    case.start(0)
    case.run(7, 70, 7, 2, 1)
    case.start(0)
    case.run(10, 0, 10, 0, 3)
    case = Case('start: a finished machine starts again', NESTED)
    case.start(0)
    case.run(10, 0, 10, 0, 3)
    case.start((5, 0, 0), lend='11111101')
    case.start((20, 0, 0), fn(0))
    case.run(1, 0, 0, 0, 3)
    case.start(0)
    case.run(0, 70, 0, 0, 0)
    case = Case('start: a failed machine starts again', [proto(2, 1, [], [op('Add', 1, 0, 0), op('Return', 1, 1)])])
    case.start(0, NIL)
    case.run(5, 30, 1, 0, 0, 1)
    case.start(0, i(4))
    case.run(5, 0, 2, 0, 1)
    case = Case('start: an unfit state is fit after it, with what lies beyond its window', [proto(2, 0, [], [RETURN])])
    case.clear()
    case.at((9, 9), (9, 9), mark=MOST)
    case.put((9, 9), (9, 9), (9, 9), (9, 9))
    case.run(0, 60, 0, 0, 0)
    case.start(0)
    case.run(0, 70, 0, 0, 0)
    case.run(1, 0, 1, 0, 0)


# Three prototypes, each called by the one before: ten instructions, in the third activation after six.
NESTED = [
    proto(3, 0, [i(5), b's', f(2.0)], [op('Closure', 0, 1), op('LoadConstant', 1, 0), op('Call', 0, 1, 1), op('Return', 0, 1)]),
    proto(3, 1, [b't'], [op('Closure', 1, 2), op('Move', 2, 0), op('Call', 1, 1, 2), op('Return', 1, 2)]),
    proto(2, 1, [], [op('Move', 1, 0), op('Return', 0, 2)]),
]

# Instructions that break a rule in a prototype of 4 registers and 1 constant in an image of 2 prototypes, as the second of three.
BROKEN = [
    (10, 'operation 39', op(39)),
    (10, 'operation 4', op(4, 0, 0, 0)),
    (10, 'operation 255', (255, 255, 255, 255, 255)),
    (10, 'Call of 255 arguments', op('Call', 0, 255, 0)),
    (10, 'Call for 255 values', op('Call', 0, 0, 255)),
    (10, 'Return of 255', op('Return', 0, 255)),
    (11, 'Move with a third byte', op('Move', 0, 1, 1)),
    (11, 'Not with flag 1', op('Not', 0, 1, flags=1)),
    (11, 'Minus with flag 128', op('Minus', 0, 1, flags=128)),
    (11, 'LoadBool 2', op('LoadBool', 0, 2, 0)),
    (11, 'LoadBool that skips 2', op('LoadBool', 0, 0, 2)),
    (11, 'LoadNil with a third byte', op('LoadNil', 0, 1, 1)),
    (11, 'Call with flag 1', op('Call', 0, 0, 0, flags=1)),
    (11, 'Return with a third byte', op('Return', 0, 0, 1)),
    (11, 'Add with flag 4', op('Add', 0, 0, 0, flags=4)),
    (12, 'Move to register 4', op('Move', 4, 0)),
    (12, 'Move from register 4', op('Move', 0, 4)),
    (12, 'LoadNil of five', op('LoadNil', 0, 5)),
    (12, 'Call of four arguments', op('Call', 0, 4, 0)),
    (12, 'Call for five values', op('Call', 0, 0, 5)),
    (12, 'Return of five', op('Return', 0, 5)),
    (12, 'Prep with the step at register 4', op('NumericForPrep', 2, 0)),
    (12, 'NumericForLoop with the copy at register 4', op('NumericForLoop', 1, 0)),
    (12, 'Add with register 255', op('Add', 0, 255, 0)),
    (12, 'Minus into register 4', op('Minus', 4, 0)),
    (12, 'Jump that closes register 4', op('Jump', 4, 0)),
    (12, 'Jump that closes register 254', op('Jump', 254, 0)),
    (12, 'GetUpValue into register 4', op('GetUpValue', 4, 0)),
    (12, 'SetUpValue from register 4', op('SetUpValue', 0, 4)),
    (13, 'LoadConstant 1', op('LoadConstant', 0, 1)),
    (13, 'LoadConstant 256', op('LoadConstant', 0, 256)),
    (13, 'Add with constant 1 on the left', op('Add', 0, 1, 0, flags=1)),
    (13, 'Eq with constant 1 on the right', op('Eq', 0, 0, 1, flags=2)),
    (14, 'Jump past the last', op('Jump', 1)),
    (14, 'Jump before the first', op('Jump', -3)),
    (14, 'Jump by -32768', op('Jump', -32768)),
    (14, 'Prep past the last', op('NumericForPrep', 0, 1)),
    (14, 'NumericForLoop before the first', op('NumericForLoop', 0, -3)),
    (14, 'Test with nothing to skip to', op('Test', 0, 0)),
    (14, 'TestSet with nothing to skip to', op('TestSet', 0, 0, 0)),
    (14, 'Less with nothing to skip to', op('Less', 0, 0, 0)),
    (14, 'LoadBool with nothing to skip to', op('LoadBool', 0, 0, 1)),
    (15, 'Closure 2', op('Closure', 0, 2)),
    (15, 'Closure 255', op('Closure', 0, 255)),
    (16, 'GetUpValue of none', op('GetUpValue', 0, 0)),
    (16, 'SetUpValue of none', op('SetUpValue', 0, 0)),
]


# ---- which operand an error names

ARITHMETIC = ('Add', 'Sub', 'Mul', 'Div', 'IDiv', 'Mod')
BITWISE = ('BitAnd', 'BitOr', 'BitXor', 'ShiftLeft', 'ShiftRight')
ORDER = ('Less', 'LessEq')
# The numbers of an unfit operand, and those of a zero divisor.
NUMBER = {'Add': 30, 'Sub': 31, 'Mul': 32, 'Div': 33, 'IDiv': 34, 'Mod': 35, 'Minus': 36, 'BitAnd': 37, 'BitOr': 38, 'BitXor': 39,
          'BitNot': 40, 'ShiftLeft': 41, 'ShiftRight': 42, 'Less': 43, 'LessEq': 44}
ZERO_NUMBER = {'IDiv': 45, 'Mod': 46}
# "Operator errors must name the first unfit operand: 1 left or only, 2 right"; z is a zero divisor; 0 where nothing is raised.
FIT, LEFT, RIGHT, ZERO = '012z'
ONLY = LEFT
ERRORS = (LEFT, RIGHT, ZERO)

# The kinds that operators tell apart, a value of each: a text is a string of the image, f a function.
SAMPLES = {
    'nil': NIL, 'true': TRUE, '6': i(6), '4.0': f(4.0), '2.5': f(2.5), 'nan': OTHER_NAN, 'inf': f(INF), '"6"': b'6', '"4.0"': b'4.0', '"2.5"': b'2.5',
    '"six"': b'six', 'f': fn(1),
}


def table(text):
    """A row for each left operand, a column for each right one."""
    columns, *rows = [line.split() for line in text.strip().splitlines()]
    assert all(len(row) == len(columns) + 1 for row in rows), text
    return {row[0]: dict(zip(columns, row[1:])) for row in rows}


OF_ARITHMETIC = table('''
            nil  true     6   4.0   2.5   nan   inf   "6" "4.0" "2.5" "six"     f
    nil       1     1     1     1     1     1     1     1     1     1     1     1
    true      1     1     1     1     1     1     1     1     1     1     1     1
    6         2     2     0     0     0     0     0     0     0     0     2     2
    4.0       2     2     0     0     0     0     0     0     0     0     2     2
    2.5       2     2     0     0     0     0     0     0     0     0     2     2
    nan       2     2     0     0     0     0     0     0     0     0     2     2
    inf       2     2     0     0     0     0     0     0     0     0     2     2
    "6"       2     2     0     0     0     0     0     0     0     0     2     2
    "4.0"     2     2     0     0     0     0     0     0     0     0     2     2
    "2.5"     2     2     0     0     0     0     0     0     0     0     2     2
    "six"     1     1     1     1     1     1     1     1     1     1     1     1
    f         1     1     1     1     1     1     1     1     1     1     1     1
''')
# "A number without an integer is unfit for bit operations"
OF_BITS = table('''
            nil  true     6   4.0   2.5   nan   inf   "6" "4.0" "2.5" "six"     f
    nil       1     1     1     1     1     1     1     1     1     1     1     1
    true      1     1     1     1     1     1     1     1     1     1     1     1
    6         2     2     0     0     2     2     2     0     0     2     2     2
    4.0       2     2     0     0     2     2     2     0     0     2     2     2
    2.5       1     1     1     1     1     1     1     1     1     1     1     1
    nan       1     1     1     1     1     1     1     1     1     1     1     1
    inf       1     1     1     1     1     1     1     1     1     1     1     1
    "6"       2     2     0     0     2     2     2     0     0     2     2     2
    "4.0"     2     2     0     0     2     2     2     0     0     2     2     2
    "2.5"     1     1     1     1     1     1     1     1     1     1     1     1
    "six"     1     1     1     1     1     1     1     1     1     1     1     1
    f         1     1     1     1     1     1     1     1     1     1     1     1
''')
# "a comparison of two kinds that don't go together names 2 when the left is an integer, number or string, else 1"
OF_ORDER = table('''
            nil  true     6   4.0   2.5   nan   inf   "6" "4.0" "2.5" "six"     f
    nil       1     1     1     1     1     1     1     1     1     1     1     1
    true      1     1     1     1     1     1     1     1     1     1     1     1
    6         2     2     0     0     0     0     0     2     2     2     2     2
    4.0       2     2     0     0     0     0     0     2     2     2     2     2
    2.5       2     2     0     0     0     0     0     2     2     2     2     2
    nan       2     2     0     0     0     0     0     2     2     2     2     2
    inf       2     2     0     0     0     0     0     2     2     2     2     2
    "6"       2     2     2     2     2     2     2     0     0     0     0     2
    "4.0"     2     2     2     2     2     2     2     0     0     0     0     2
    "2.5"     2     2     2     2     2     2     2     0     0     0     0     2
    "six"     2     2     2     2     2     2     2     0     0     0     0     2
    f         1     1     1     1     1     1     1     1     1     1     1     1
''')
NAMED = {**dict.fromkeys(ARITHMETIC, OF_ARITHMETIC), **dict.fromkeys(BITWISE, OF_BITS), **dict.fromkeys(ORDER, OF_ORDER)}
NAMED_OF_ONE = table('''
            nil  true     6   4.0   2.5   nan   inf   "6" "4.0" "2.5" "six"     f
    Minus     1     1     0     0     0     0     0     0     0     0     1     1
    BitNot    1     1     0     0     1     1     1     0     0     1     1     1
''')
# "45 for a zero integer divisor in IDiv, 46 in Mod, both naming 2, tested after operand fitness": a row for each dividend. A string outside the
# set is unfit, though it looks like a zero.
DIVIDENDS = {
    'nil': NIL, 'true': TRUE, '5': i(5), '0': i(0), 'smallest': i(SMALLEST), '5.0': f(5.0), 'nan': NAN, '-inf': f(-INF), '"5"': b'5', '"0"': b'0',
    '"5.0"': b'5.0', '"1e23"': b'1e23', 'f': fn(1),
}
DIVISORS = {
    '0': i(0), '"0"': b'0', '"-0"': b'-0', '"0x0"': b' 0x0 ', '0.0': f(0.0), '-0.0': f(-0.0), '"0.0"': b'0.0', '"0e9"': b'0e9', 'nil': NIL, 'true': TRUE,
    '"0x0p0"': b'0x0p0', '""': b'', 'f': fn(1),
}
BY_ZERO = table('''
                    0    "0"   "-0"  "0x0"    0.0   -0.0  "0.0"  "0e9"    nil   true "0x0p0"    ""      f
    nil             1      1      1      1      1      1      1      1      1      1       1     1      1
    true            1      1      1      1      1      1      1      1      1      1       1     1      1
    5               z      z      z      z      0      0      0      0      2      2       2     2      2
    0               z      z      z      z      0      0      0      0      2      2       2     2      2
    smallest        z      z      z      z      0      0      0      0      2      2       2     2      2
    5.0             0      0      0      0      0      0      0      0      2      2       2     2      2
    nan             0      0      0      0      0      0      0      0      2      2       2     2      2
    -inf            0      0      0      0      0      0      0      0      2      2       2     2      2
    "5"             z      z      z      z      0      0      0      0      2      2       2     2      2
    "0"             z      z      z      z      0      0      0      0      2      2       2     2      2
    "5.0"           0      0      0      0      0      0      0      0      2      2       2     2      2
    "1e23"          1      1      1      1      1      1      1      1      1      1       1     1      1
    f               1      1      1      1      1      1      1      1      1      1       1     1      1
''')


def kind_of(value):
    """The row or column of a value; its string, if it is one, reads as no figure."""
    kind, word = value
    if kind != 3:
        return ('nil', 'true', '6', None, '"six"', 'f')[kind]
    x = double(word)
    if x != x:
        return 'nan'
    return 'inf' if abs(x) == INF else '4.0' if x == int(x) and -2**63 <= x < 2**63 else '2.5'


def entry_of(name, left, right):
    entry = NAMED[name][kind_of(left)][kind_of(right)]
    return ZERO if entry == FIT and name in ZERO_NUMBER and left[0] == 2 and right == i(0) else entry


def after(name, entry, p):
    """What a run of one instruction at p answers, where the operator goes on at p + 1."""
    if entry == FIT:
        return 70, 1, 0, p + 1
    return (ZERO_NUMBER[name], 1, 0, p, 2) if entry == ZERO else (NUMBER[name], 1, 0, p, int(entry))


# ---- operators

SAMPLE = [NIL, TRUE, i(6), i(-4), f(2.5), f(4.0), s(0), fn(1)]
EDGES = {
    'Add': [(i(LARGEST), i(1)), (i(SMALLEST), i(-1)), (i(2**53 + 1), f(1.0)), (f(INF), f(-INF)), (OTHER_NAN, i(1)), (f(-0.0), f(-0.0))],
    'Sub': [(i(SMALLEST), i(1)), (i(0), i(SMALLEST)), (f(0.0), f(0.0)), (f(INF), f(INF)), (i(2**53 + 1), f(0.0))],
    'Mul': [(i(LARGEST), i(LARGEST)), (i(SMALLEST), i(-1)), (i(2**32), i(2**32)), (f(0.0), f(INF)), (i(0), f(-1.0)), (f(1e200), f(1e200))],
    'Div': [(i(1), i(0)), (i(-1), i(0)), (i(0), i(0)), (i(1), f(-0.0)), (i(LARGEST), i(LARGEST)), (i(1), i(3))],
    'IDiv': [(i(-7), i(2)), (i(SMALLEST), i(-1)), (i(7), i(0)), (i(0), i(0)), (f(7.0), i(0)), (i(7), f(0.0)), (i(-7), f(2.0)), (f(-0.0), i(3)),
             (f(1.0), f(0.1)), (f(-5e-324), f(2.0)), (i(7), f(INF)), (i(-7), f(INF))],
    'Mod': [(i(7), i(-2)), (i(SMALLEST), i(-1)), (i(LARGEST - 1), i(LARGEST)), (i(7), i(0)), (i(0), i(0)), (f(7.0), i(0)), (i(7), f(0.0)),
            (f(-4.0), f(2.0)), (f(4.0), f(-2.0)), (f(1.0), f(INF)), (f(1e-20), f(1.0)), (f(1e308), f(1.7e308)), (f(5.5), f(-2.0)),
            (f(-1.0), f(INF)), (i(7), f(-INF)), (f(-INF), i(7)), (f(-1e-20), f(1.0)), (f(-5e-324), f(0.5)), (f(-0.0), f(INF))],
    'BitAnd': [(f(-0.0), i(-1)), (f(2.0**63), i(1)), (f(-2.0**63), i(-1)), (i(1), NAN), (i(1), f(INF)), (f(0.5), f(0.5))],
    'BitOr': [(f(2.0**62), i(1)), (f(-2.0**64), i(1)), (i(1), OTHER_NAN)],
    'BitXor': [(i(-1), f(-1.0)), (f(-INF), i(1)), (i(1), f(1e-300))],
    'ShiftLeft': [(i(2), i(-1)), (i(1), i(64)), (i(1), i(63)), (i(-1), i(-63)), (i(-1), i(-64)), (i(1), i(SMALLEST)), (i(1), f(3.0)), (i(1), f(3.5))],
    'ShiftRight': [(i(-1), i(1)), (i(1), i(-63)), (i(-1), i(64)), (i(-1), i(63)), (i(1), i(-64)), (i(1), i(SMALLEST)), (f(8.0), i(1)),
                   (f(2.0**63), i(1))],
}


def binaries():
    for name in ARITHMETIC + BITWISE:
        case = Case('%s: all kinds, and edges' % name, [proto(3, 0, [b'a'], [op(name, 2, 0, 1), RETURN]), proto(1, 0, [], [RETURN])])
        case.clear()
        for left, right in [(left, right) for left in SAMPLE for right in SAMPLE] + EDGES[name]:
            case.at((0, 0))
            case.put(left, right)
            case.run(1, *after(name, entry_of(name, left, right), 0))
        case = Case('%s: constants, and a destination that is an operand' % name, [
            proto(3, 0, [i(20), f(3.0), b'a'], [
                op(name, 2, 0, 1), op(name, 2, 0, 1, flags=1), op(name, 2, 0, 1, flags=2), op(name, 2, 0, 1, flags=3),
                op(name, 0, 0, 1), op(name, 1, 1, 0), op(name, 2, 0, 0), RETURN, op(name, 0, 2, 0, flags=1), op(name, 0, 0, 2, flags=2), RETURN])])
        case.start(0)
        case.put(i(9), i(2))
        case.run(7, 70, 7, 0, 7)
        for at, operand in ((8, 1), (9, 2)):
            case.at((0, at))
            case.put(i(9), i(2))
            case.run(2, NUMBER[name], 1, 0, at, operand)
            case.run(2, NUMBER[name], 0, 0, at, operand)


def unaries():
    values = [NIL, FALSE, TRUE, i(0), i(7), i(-1), i(SMALLEST), f(0.0), f(-0.0), f(2.5), f(4.0), f(2.0**63), f(-2.0**63), NAN, OTHER_NAN, f(INF),
              s(0), s(1), fn(0), fn(1)]
    for name in ('Move', 'Not', 'Minus', 'BitNot'):
        case = Case('%s: all kinds' % name, [proto(2, 0, [b'a', b''], [op(name, 1, 0), op(name, 0, 0), RETURN]), proto(1, 0, [], [RETURN])])
        case.clear()
        for value in values:
            for at in (0, 1):
                case.at((0, at))
                case.put(value)
                if name in ('Move', 'Not'):
                    case.run(1, 70, 1, 0, at + 1)
                else:
                    case.run(1, *after(name, NAMED_OF_ONE[name][kind_of(value)], at))


def comparisons():
    values = [NIL, FALSE, TRUE, i(6), i(-4), f(6.0), f(2.5), s(0), s(1), s(2), s(3), fn(0), fn(1)]
    edges = [(i(2**53 + 1), f(2.0**53)), (f(2.0**53), i(2**53 + 1)), (i(LARGEST), f(2.0**63)), (f(2.0**63), i(LARGEST)), (i(SMALLEST), f(-2.0**63)),
             (NAN, NAN), (NAN, i(1)), (i(1), NAN), (f(INF), i(LARGEST)), (f(-INF), i(SMALLEST)), (f(-0.0), i(0)), (f(0.0), f(-0.0)), (OTHER_NAN, NAN)]
    for name in ('Eq', 'Less', 'LessEq'):
        case = Case('%s: all kinds, and edges' % name, [
            proto(2, 0, [b'a', b'b', b'', b'a'], [op(name, 0, 0, 1), RETURN, RETURN, op(name, 1, 0, 1), RETURN, RETURN]), proto(1, 0, [], [RETURN])])
        case.clear()
        for at, pairs in ((0, [(left, right) for left in values for right in values] + edges), (3, [(x, x) for x in values] + edges)):
            for left, right in pairs:
                case.at((0, at))
                case.put(left, right)
                entry = FIT if name == 'Eq' else entry_of(name, left, right)
                if entry == FIT:
                    case.goes_on(at)
                else:
                    case.run(1, *after(name, entry, at))
        case = Case('%s: constants' % name, [
            proto(1, 0, [i(3), f(3.5), b'ab', b'b'], [
                op(name, 0, 0, 0, flags=1), RETURN, op(name, 0, 0, 1, flags=2), RETURN, op(name, 1, 2, 3, flags=3), RETURN,
                op(name, 1, 3, 2, flags=3), RETURN, RETURN])])
        case.start(0)
        case.put(i(3))
        case.run(3)
        for at in (2, 4, 6):
            case.at((0, at))
            case.run(1)
    case = Case('Less: strings byte by byte, a prefix first', [
        proto(2, 0, [b'', b'\0', b'a', b'a\0', b'ab', b'b', b'\x7f', b'\x80', b'\xff', b'a' * 64], [op('Less', 1, 0, 1), RETURN, RETURN])])
    case.clear()
    texts = [b'', b'\0', b'a', b'a\0', b'ab', b'b', b'\x7f', b'\x80', b'\xff', b'a' * 64]
    for left in range(10):
        for right in range(10):
            case.at((0, 0))
            case.put(s(left), s(right))
            case.run(1, 70, 1, 0, 2 if texts[left] < texts[right] else 1)


def tests():
    values = [(NIL, 0), (FALSE, 0), (TRUE, 1), (i(0), 1), (f(0.0), 1), (NAN, 1), (s(0), 1), (fn(0), 1)]
    code = [op('Test', 0, 0), RETURN, RETURN, op('Test', 0, 1), RETURN, RETURN, op('TestSet', 1, 0, 0), RETURN, RETURN, op('TestSet', 1, 0, 1),
            RETURN, RETURN, op('TestSet', 0, 0, 0), RETURN, RETURN]
    case = Case('Test and TestSet: all kinds; a skip where the truth is the byte, a copy where none', [proto(3, 0, [b''], code)])
    case.clear()
    for value, truth in values:
        for at, byte in ((0, 0), (3, 1), (6, 0), (9, 1), (12, 0)):
            case.at((0, at))
            case.put(value, i(99))
            case.run(1, 70, 1, 0, at + 2 if truth == byte else at + 1)


def loads():
    case = Case('LoadConstant: all kinds, of the second prototype too', [
        proto(8, 0, [NIL, FALSE, TRUE, i(-2), OTHER_NAN, f(-0.0), b'', b'text'], [
            *[op('LoadConstant', at, at) for at in range(8)], op('Closure', 0, 1), op('Call', 0, 0, 1), op('Return', 0, 8)]),
        proto(1, 0, [b'text', b'other'], [op('LoadConstant', 0, 1), op('Return', 0, 1)])])
    case.start(0)
    case.run(8, 70, 8, 0, 8)
    case.run(9, 0, 5, 0, 10)
    case = Case('LoadBool: values and skips', [
        proto(4, 0, [], [op('LoadBool', 0, 0, 0), op('LoadBool', 1, 1, 0), op('LoadBool', 2, 0, 1), RETURN, op('LoadBool', 3, 1, 1), RETURN, RETURN])])
    case.start(0)
    for at, after in ((0, 1), (1, 2), (2, 4), (4, 6)):
        case.run(1, 70, 1, 0, after)
    case.run(1, 0, 1, 0, 6)
    case = Case('LoadNil: none, one, all, none at the end', [
        proto(4, 0, [], [op('LoadNil', 0, 0), op('LoadNil', 1, 1), op('LoadNil', 4, 0), op('LoadNil', 2, 2), op('LoadNil', 0, 4), RETURN])])
    case.start(0)
    case.put(i(1), fn(0), TRUE, f(1.0), i(77))
    for at in range(5):
        case.run(1, 70, 1, 0, at + 1)
    case.run(1, 0, 1, 0, 5)
    case = Case('LoadNil: 255 of 255', [proto(255, 0, [], [op('LoadNil', 0, 255), RETURN])])
    case.start(0)
    case.put(i(1), first=0)
    case.put(i(2), i(3), first=254)
    case.run(1, 70, 1, 0, 1)
    case = Case('Closure: itself and another; Jump: on, back, to itself', [
        proto(2, 0, [], [op('Closure', 0, 0), op('Closure', 1, 1), op('Jump', 1), op('Jump', -1), op('Jump', -2), RETURN]),
        proto(1, 0, [], [RETURN])])
    case.start(0)
    for after in (1, 2, 4, 3, 3, 3):
        case.run(1, 70, 1, 0, after)
    case = Case('Jump: far', [proto(1, 0, [], [op('Jump', 299)] + [RETURN] * 299 + [op('Jump', -301)])])
    case.start(0)
    case.run(1, 70, 1, 0, 300)
    case.run(1, 70, 1, 0, 0)
    case.run(1001, 70, 1001, 0, 300)


# ---- loops

LOOP = [op('LoadConstant', 0, 0), op('LoadConstant', 1, 1), op('LoadConstant', 2, 2), op('NumericForPrep', 0, 0), op('NumericForLoop', 0, -1),
        op('Return', 0, 4)]


def loops():
    def looped(what, first, limit, step, turns):
        """turns: how often the body is entered; None without end."""
        case = Case('loop: %s' % what, [proto(4, 0, [first, limit, step], LOOP)])
        case.start(0)
        case.run(4, 70, 4, 0, 4)
        if turns is None:
            case.run(50, 70, 50, 0, 4)
            return
        for _ in range(min(turns, 3)):
            case.run(1, 70, 1, 0, 4)
        case.run(turns + 9, 0, turns - min(turns, 3) + 2, 0, 5)
    looped('1, 3', i(1), i(3), i(1), 3)
    looped('3, 1', i(3), i(1), i(1), 0)
    looped('3, 1, -1', i(3), i(1), i(-1), 3)
    looped('1, 3, -1', i(1), i(3), i(-1), 0)
    looped('1, 10, 4', i(1), i(10), i(4), 3)
    looped('1.0, 3', f(1.0), i(3), i(1), 3)
    looped('1, 3, 1.0', i(1), i(3), f(1.0), 3)
    looped('1, 2.5, an integer loop', i(1), f(2.5), i(1), 2)
    looped('1, infinity', i(1), f(INF), i(1), None)
    looped('-1, -infinity, -1', i(-1), f(-INF), i(-1), None)
    looped('step 0', i(1), i(1), i(0), None)
    looped('step 0, past the end', i(2), i(1), i(0), 0)
    looped('step -0.0', f(1.0), i(1), f(-0.0), None)
    looped('NaN index', NAN, i(1), i(1), None)
    looped('NaN limit', i(1), NAN, i(1), None)
    looped('NaN step', i(1), i(1), OTHER_NAN, None)
    looped('up to the largest: it goes on from the smallest', i(LARGEST - 1), i(LARGEST), i(1), None)
    looped('down to the smallest', i(SMALLEST + 1), i(SMALLEST), i(-1), None)
    looped('a number index, an integer limit past 2^53', f(2.0**53), i(2**53 + 1), i(2), 1)
    looped('smallest as step', i(0), i(0), i(SMALLEST), 1)
    kinds = [NIL, TRUE, s(0), fn(0)]
    values = [(i(1), i(3), i(1)), (f(1.0), f(3.0), f(1.0))]
    case = Case('Prep: 31 unless index and step are numeric; the limit may be anything', [
        proto(4, 0, [b'a'], [RETURN, op('NumericForPrep', 0, 1), RETURN, op('Return', 0, 4)])])
    case.clear()
    for good in values:
        for which in range(3):
            for bad in kinds:
                controls = list(good)
                controls[which] = bad
                case.at((0, 1))
                case.put(*controls, i(77))
                case.run(1, *((31, 1, 0, 1, 1), (70, 1, 0, 3), (31, 1, 0, 1, 3))[which])
    case = Case('NumericForLoop: 30 unless all three are numeric, before anything changes', [
        proto(4, 0, [b'a'], [RETURN, op('NumericForLoop', 0, 1), RETURN, op('Return', 0, 4)])])
    case.clear()
    for good in values:
        for which in range(3):
            for bad in kinds:
                controls = list(good)
                controls[which] = bad
                case.at((0, 1))
                case.put(*controls, i(77))
                case.run(1, 30, 1, 0, 1, which + 1)
        for controls, place in (((good[0], good[1], good[2]), 3), ((good[1], good[0], good[2]), 2), ((good[2], f(0.5), i(-1)), 2)):
            case.at((0, 1))
            case.put(*controls, i(77))
            case.run(1, 70, 1, 0, place)
            case.run(2, 0, 1, 0, place)


# ---- figures that arrive as text

# Left, right and what is stored, or which error the operator raises. A text is a string of the image.
FIGURES = {
    'Add': [
        (b'10', i(1), i(11)), (i(1), b'10', i(11)), (b'10', b'1', i(11)), (b'1.5', i(1), f(2.5)), (f(0.5), b'2', f(2.5)), (b'0x10', b'2.5', f(18.5)),
        (b' 12\t', b'\n-2\r', i(10)), (b'9223372036854775807', i(1), i(SMALLEST)), (b'-9223372036854775808', b'-1', i(LARGEST)),
        (b'1e3', i(0), f(1000.0)), (b'10000000000000000000', i(0), f(1e19)), (b'9223372036854775808', i(0), LEFT),
        (i(0), b'9223372036854775808', RIGHT), (b'10', b'ten', RIGHT), (b'ten', b'10', LEFT), (b'10', NIL, RIGHT), (TRUE, b'10', LEFT),
        (b'10', fn(1), RIGHT)],
    'Sub': [
        (b'10', i(1), i(9)), (i(1), b'10', i(-9)), (b'10', b'1', i(9)), (b'5', b'0.5', f(4.5)), (f(0.5), b'5', f(-4.5)),
        (b'-9223372036854775808', b'1', i(LARGEST)), (b'1', b'1e23', RIGHT), (b'1e23', b'1', LEFT), (b'', i(1), LEFT), (i(1), b'', RIGHT)],
    'Mul': [
        (b'7', i(6), i(42)), (i(6), b'7', i(42)), (b'6', b'7', i(42)), (b'1.5', i(2), f(3.0)), (b'-0', b'5', i(0)), (b'-0.0', b'5', f(-0.0)),
        (b'0x8000000000000000', b'-1', i(SMALLEST)), (b'7 ', b' 0X6', i(42)), (b'7', b'6 6', RIGHT), (b'- 7', b'6', LEFT), (b'7', b'', RIGHT)],
    'Div': [
        (b'10', i(4), f(2.5)), (i(10), b'4', f(2.5)), (b'10', b'4', f(2.5)), (b'1', b'0', f(INF)), (i(-1), b'0', f(-INF)), (b'0', b'0', NAN),
        (b'1', b'-0.0', f(-INF)), (b'1', b'0x', RIGHT), (b'0x', b'1', LEFT), (b'.', i(1), LEFT)],
    'IDiv': [
        (b'7', i(2), i(3)), (i(7), b'2', i(3)), (b'7', b'2', i(3)), (b'-7', i(2), i(-4)), (i(7), b'-2', i(-4)),
        (b'-9223372036854775808', b'-1', i(SMALLEST)), (b'7.0', b'2', f(3.0)), (i(5), b'0', ZERO), (b'5', i(0), ZERO), (b'5', b'0', ZERO),
        (b'5', b'-0', ZERO), (b'5', b'0x0', ZERO), (b'5', b' 00 ', ZERO), (f(5.0), b'0', f(INF)), (b'5.0', i(0), f(INF)), (i(5), b'0.0', f(INF)),
        (b'5', f(0.0), f(INF)), (i(-5), b'0e9', f(-INF)), (i(0), b'seven', RIGHT), (b'seven', i(0), LEFT)],
    'Mod': [
        (b'7', i(-2), i(-1)), (i(7), b'-2', i(-1)), (b'7', b'2', i(1)), (b'-9223372036854775808', b'-1', i(0)), (b'5.5', i(2), f(1.5)),
        (i(7), b'2.0', f(1.0)), (i(5), b'0', ZERO), (b'5', i(0), ZERO), (b'5', b'0', ZERO), (b'5', b'+0x00', ZERO), (f(5.0), b'0', NAN),
        (i(5), b'0.0', NAN), (b'5', f(0.0), NAN), (b'5', b'.0', NAN), (b'5', b'.', RIGHT), (b'..', b'5', LEFT), (b'1', f(INF), f(1.0)),
        (b'-1', f(INF), f(INF)), (b'-4.0', b'2', f(-0.0)), (i(4), b'-2.0', f(0.0)), (b'-1e-20', b'1.0', f(1.0)), (b'1e-20', i(1), f(1e-20))],
    'BitAnd': [
        (b'12', i(10), i(8)), (i(12), b'10', i(8)), (b'0xc', b'10', i(8)), (b'3.0', i(1), i(1)), (b'1e3', i(8), i(8)), (i(-1), b'-0.0', i(0)),
        (b'0xffffffffffffffff', i(-1), i(-1)), (b'1.5', i(1), LEFT), (i(1), b'1.5', RIGHT), (b'1e19', i(1), LEFT),
        (b'9223372036854775808', i(1), LEFT), (b'10', f(0.5), RIGHT), (b'10', b'0x1p4', RIGHT)],
    'BitOr': [
        (b'3.0', i(0), i(3)), (i(0), b'3.0', i(3)), (b'0x10', i(0), i(16)), (b'8', b'1', i(9)), (b'-0xffffffffffffffff', i(0), i(1)),
        (b'0x10000000000000001', i(0), i(1)), (b'-9223372036854775808', i(0), i(SMALLEST)), (b'-922337203685477.5808e4', i(0), LEFT),
        (b'1.5', i(0), LEFT), (i(0), b'1e-1', RIGHT), (b'8', b'one', RIGHT)],
    'BitXor': [
        (b'5', i(1), i(4)), (i(1), b'5', i(4)), (b'5', b'5.0', i(0)), (b'50e-1', f(1.0), i(4)), (b'1.5', i(1), LEFT), (i(1), b'1.5', RIGHT),
        (b'5', b'5!', RIGHT)],
    'ShiftLeft': [
        (b'1', i(4), i(16)), (i(1), b'4', i(16)), (b'1', b'4.0', i(16)), (b'2', b'-1', i(1)), (b'1', b'64', i(0)), (b'1.5', i(1), LEFT),
        (i(1), b'1.5', RIGHT), (b'1', b'1x', RIGHT)],
    'ShiftRight': [
        (b'16', i(4), i(1)), (i(16), b'4', i(1)), (b'16.0', b'4', i(1)), (i(-1), b'1.0', i(LARGEST)), (b'-1', b'0x3f', i(1)), (b'0.5', i(1), LEFT),
        (i(1), b'0.5', RIGHT), (b'x1', b'1', LEFT)],
}
FIGURES_OF_ONE = {
    'Minus': [
        (b'10', i(-10)), (b' 12 ', i(-12)), (b'+7', i(-7)), (b'0x0A', i(-10)), (b'0', i(0)), (b'-0', i(0)), (b'0.0', f(-0.0)), (b'-0.0', f(0.0)),
        (b'1.50', f(-1.5)), (b'5.', f(-5.0)), (b'.5', f(-0.5)), (b'5.e1', f(-50.0)), (b'.5E+1', f(-5.0)), (b'2.5e-1', f(-0.25)), (b'0.1', f(-0.1)),
        (b'-9223372036854775808', i(SMALLEST)), (b'9223372036854775807', i(-LARGEST)), (b'-10000000000000000000', f(1e19)),
        (b'0x8000000000000000', i(SMALLEST)), (b'1e22', f(-1e22)), (b'0.1e23', f(-1e22)), (b'1e-22', f(-1e-22)),
        (b'1e0000000000000000022', f(-1e22)), (b'0e99999', f(-0.0)), (b'123456789012345e22', f(-123456789012345e22)),
        (b'000000000000000000000000000000000000000000000000000000000000007', i(-7)), (b'\t\n\x0b\x0c\r 7\t\n\x0b\x0c\r ', i(-7)),
        (b'0' * 63 + b'9', i(-9)), (b'', ONLY), (b' ', ONLY), (b'-', ONLY), (b'+', ONLY), (b'0x', ONLY), (b'.', ONLY), (b'.e1', ONLY), (b'1e', ONLY),
        (b'1e+', ONLY), (b'- 1', ONLY), (b'+-1', ONLY), (b'1 2', ONLY), (b'1\x00', ONLY), (b'\x001', ONLY), (b'\x081', ONLY), (b'\x0e1', ONLY),
        (b'1\xa0', ONLY), (b'0x1.8', ONLY), (b'0x1p4', ONLY), (b'0xg', ONLY), (b'0b1', ONLY), (b'1_000', ONLY), (b'1,5', ONLY), (b'inf', ONLY),
        (b'nan', ONLY), (b'1e23', ONLY), (b'10e22', ONLY), (b'1e-23', ONLY), (b'1e99999999999999999999', ONLY), (b'1234567890123456.5', ONLY),
        (b'0.1234567890123456', ONLY), (b'9223372036854775808', ONLY), (b'-9223372036854775809', ONLY)],
    'BitNot': [
        (b'0', i(-1)), (b'10', i(-11)), (b' 3.0 ', i(-4)), (b'0xffffffffffffffff', i(0)), (b'-1', i(0)), (b'1e3', i(-1001)), (b'1.5', ONLY),
        (b'1e19', ONLY), (b'', ONLY), (b'x', ONLY), (b'9223372036854775808', ONLY)],
}


class Texts:
    """The strings of a case, each of them once, as constants."""

    def __init__(self, rows):
        self.all = sorted({value for row in rows for value in row if isinstance(value, bytes)})

    def __call__(self, value):
        return s(self.all.index(value)) if isinstance(value, bytes) else value


def figures():
    for name, rows in FIGURES.items():
        texts = Texts(rows)
        case = Case('%s: strings that read as figures, and strings that do not' % name, [
            proto(3, 0, texts.all, [op(name, 2, 0, 1), RETURN]), proto(1, 0, [], [RETURN])])
        case.clear()
        for left, right, result in rows:
            case.at((0, 0))
            case.put(texts(left), texts(right), fn(0))
            case.run(1, *after(name, result if result in ERRORS else FIT, 0))
            # Only the result is stored; the operands keep their strings.
            case.holds(texts(left), texts(right), fn(0) if result in ERRORS else result)
    for name, rows in FIGURES_OF_ONE.items():
        texts = Texts(rows)
        case = Case('%s: strings that read as figures, and strings that do not' % name, [proto(2, 0, texts.all, [op(name, 1, 0), RETURN])])
        case.clear()
        for text, result in rows:
            case.at((0, 0))
            case.put(texts(text), TRUE)
            case.run(1, *after(name, result if result in ERRORS else FIT, 0))
            case.holds(texts(text), TRUE if result in ERRORS else result)
    for name in (*FIGURES, *FIGURES_OF_ONE):
        two = name in FIGURES
        case = Case('%s: the result of a string into its own register' % name, [proto(2, 0, [b'6', b'six'], [op(name, 0, 0, *[0] * two), RETURN])])
        case.clear()
        case.at((0, 0))
        case.put(s(1))
        case.run(1, NUMBER[name], 1, 0, 0, 1)
        case.holds(s(1))
        case.at((0, 0))
        case.put(s(0))
        case.run(1, 70, 1, 0, 1)
        case.holds({'Add': i(12), 'Sub': i(0), 'Mul': i(36), 'Div': f(1.0), 'IDiv': i(1), 'Mod': i(0), 'BitAnd': i(6), 'BitOr': i(6), 'BitXor': i(0),
                    'ShiftLeft': i(384), 'ShiftRight': i(0), 'Minus': i(-6), 'BitNot': i(-7)}[name])
    case = Case('figures: constants on either side, and a string of another prototype', [
        proto(4, 0, [b'7', b' 0x0A ', b'2.5', b'seven', i(3)], [
            op('Add', 0, 0, 4, flags=3), op('Mul', 1, 4, 1, flags=3), op('Sub', 2, 1, 0, flags=3), op('Closure', 3, 1), op('Call', 3, 0, 1),
            op('IDiv', 3, 3, 2, flags=2), op('Add', 0, 3, 0, flags=1), RETURN]),
        proto(1, 0, [b'-12'], [op('LoadConstant', 0, 0), op('Return', 0, 1)])])
    case.start(0)
    case.run(3, 70, 3, 0, 3)
    case.holds(i(10), i(30), i(3))
    case.run(4, 70, 4, 0, 5)
    case.holds(s(5), first=3)
    case.run(1, 70, 1, 0, 6)
    case.holds(f(-5.0), first=3)
    case.run(5, 30, 1, 0, 6, 1)
    case.run(5, 30, 0, 0, 6, 1)
    case = Case('figures: a string stays a string where nothing is worked out', [
        proto(4, 0, [b'10', i(1)], [
            op('LoadConstant', 0, 0), op('Add', 1, 0, 1, flags=2), op('Move', 2, 0), op('Not', 3, 0), op('Eq', 0, 0, 1), op('Return', 0, 4),
            op('Return', 0, 0)])])
    case.start(0)
    case.run(9, 0, 6, 0, 6)
    case.holds(s(0), i(11), s(0), FALSE)
    # A comparison takes strings as they are: with numbers they have no order, the left is not at fault, and they are not equal.
    texts = Texts([(b'1', b'1.0', b'10', b'9', b'0x1')])
    for name, number, pairs in (
            ('Eq', None, [
                (b'1', i(1), False), (i(1), b'1', False), (b'1', b'1.0', False), (b'1', b'0x1', False), (b'1', b'1', True), (f(1.0), b'1.0', False)]),
            ('Less', 43, [
                (b'1', i(2), None), (i(0), b'1', None), (b'1', f(2.0), None), (b'10', b'9', True), (b'9', b'10', False), (b'1', b'1.0', True)]),
            ('LessEq', 44, [
                (b'1', i(1), None), (i(1), b'1', None), (f(0.0), b'1', None), (b'10', b'9', True), (b'9', b'10', False), (b'1', b'1', True)])):
        case = Case('%s: figures are not read' % name, [proto(2, 0, texts.all, [op(name, 1, 0, 1), RETURN, RETURN])])
        case.clear()
        for left, right, holds in pairs:
            case.at((0, 0))
            case.put(texts(left), texts(right))
            case.run(1, *((number, 1, 0, 0, 2) if holds is None else (70, 1, 0, 2 if holds else 1)))
    # Nor does a loop: Prep subtracts and NumericForLoop adds, but not what a string reads as.
    for name, number in (('NumericForPrep', 31), ('NumericForLoop', 30)):
        case = Case('%s: figures are not read' % name, [proto(4, 0, [b'1', b'3.0', b'0x1'], [RETURN, op(name, 0, 1), RETURN, op('Return', 0, 4)])])
        case.clear()
        for text in (s(0), s(1), s(2)):
            for which in range(3):
                controls = [i(1), i(3), i(1)]
                controls[which] = text
                case.at((0, 1))
                case.put(*controls, i(77))
                if name == 'NumericForPrep' and which == 1:
                    case.run(1, 70, 1, 0, 3)
                    case.holds(i(0), text, i(1), i(77))
                else:
                    case.run(1, number, 1, 0, 1, which + 1)
                    case.holds(*controls, i(77))
        case.at((0, 1))
        case.put(s(0), s(0), s(0), i(77))
        case.run(1, number, 1, 0, 1, 1)


# ---- who is named, of every pair of kinds

class Operands:
    """Samples in registers, and as constants of the first of two prototypes: all but the function, which is the second."""

    def __init__(self, *samples):
        self.samples = {what: value for some in samples for what, value in some.items()}
        self.constants = [what for what, value in self.samples.items() if value != fn(1)]

    def index(self, what):
        return self.constants.index(what)

    def __call__(self, what):
        value = self.samples[what]
        return s(self.index(what)) if isinstance(value, bytes) else value

    def case(self, name, code):
        """All registers nil at first; a register is free behind the operands."""
        case = Case(name, [proto(3, 0, [self.samples[what] for what in self.constants], code + [RETURN, RETURN]), proto(1, 0, [], [RETURN])])
        case.clear()
        return case


def judge(case, names, at, entry):
    """Operators one after the other from instruction `at` on, of operands that are there."""
    for p, name in enumerate(names, at):
        case.at((0, p))
        if name in ORDER and entry == FIT:
            case.goes_on(p)
        else:
            case.run(1, *after(name, entry, p))


def code_of(names, b, c, flags=0):
    return [op(name, 1 if name in ORDER else 2, b, c, flags=flags) for name in names]


def judge_constants(what, operands, names, entries, pairs):
    """pairs: of a constant on the left, of one on the right, of two constants."""
    for flags, where in ((1, 'the left one a constant'), (2, 'the right one a constant'), (3, 'constants')):
        sides = [(operands.index(left) if flags & 1 else 0, operands.index(right) if flags & 2 else 1) for left, right in pairs[flags]]
        # The operators of a pair of constants, or of a constant and a register, stand once.
        places = sorted(set(sides))
        case = operands.case('%s, %s' % (what, where), [five for b, c in places for five in code_of(names, b, c, flags)])
        for (left, right), side in zip(pairs[flags], sides):
            case.put(NIL if flags & 1 else operands(left), NIL if flags & 2 else operands(right))
            judge(case, names, len(names) * places.index(side), entries[left][right])


def named():
    operands = Operands(SAMPLES)
    # Beside each constant one operand that every operator takes and one that none takes.
    kinds = operands.constants
    pairs = {
        1: [(kind, other) for kind in kinds for other in ('6', 'nil')],
        2: [(other, kind) for kind in kinds for other in ('6', 'nil')],
        3: [(kind, '6') for kind in kinds] + [('6', kind) for kind in kinds if kind != '6'] + [('nil', 'nil')],
    }
    for names, entries in ((ARITHMETIC, OF_ARITHMETIC), (BITWISE, OF_BITS), (ORDER, OF_ORDER)):
        what = 'named: %s to %s' % (names[0], names[-1])
        case = operands.case('%s, every kind on both sides' % what, code_of(names, 0, 1))
        for left in SAMPLES:
            for right in SAMPLES:
                case.put(operands(left), operands(right))
                judge(case, names, 0, entries[left][right])
        judge_constants(what, operands, names, entries, pairs)
    names = ('Minus', 'BitNot')
    case = operands.case('named: Minus and BitNot of every kind', [op(name, 2, 0) for name in names])
    for kind in SAMPLES:
        case.put(operands(kind))
        for p, name in enumerate(names):
            case.at((0, p))
            case.run(1, *after(name, NAMED_OF_ONE[name][kind], p))

    operands = Operands(DIVIDENDS, DIVISORS)
    names = tuple(ZERO_NUMBER)
    case = operands.case('zero divisors, and what is unfit before them', code_of(names, 0, 1))
    for left in DIVIDENDS:
        for right in DIVISORS:
            case.put(operands(left), operands(right))
            judge(case, names, 0, BY_ZERO[left][right])
    pairs = [(left, right) for left in ('nil', '5', '5.0', '"5"') for right in ('0', '"0x0"', '0.0', 'nil')]
    judge_constants('zero divisors', operands, names, BY_ZERO, dict.fromkeys((1, 2, 3), pairs))


# Which of a loop's controls are fit (f) and unfit (u): "for loop controls 1 index, 2 limit, 3 step"; "Prep counts only index and step".
OF_LOOP = {'fff': 0, 'uff': 1, 'fuf': 2, 'ffu': 3, 'uuf': 1, 'ufu': 1, 'fuu': 2, 'uuu': 1}
OF_PREP = {'fff': 0, 'uff': 1, 'fuf': 0, 'ffu': 3, 'uuf': 1, 'ufu': 1, 'fuu': 3, 'uuu': 1}


def controls():
    fit = ((i(1), i(3), i(1)), (f(1.0), f(3.0), f(1.0)))
    unfit = (NIL, TRUE, s(0), fn(0))
    for name, number, entries in (('NumericForPrep', 31, OF_PREP), ('NumericForLoop', 30, OF_LOOP)):
        case = Case('named: %s, every control fit and unfit' % name, [
            proto(4, 0, [b'1'], [RETURN, op(name, 0, 1), RETURN, op('Return', 0, 4)])])
        case.clear()
        sides = [[('f', good[which]) for good in fit] + [('u', bad) for bad in unfit] for which in range(3)]
        for index, limit, step in product(*sides):
            operand = entries[index[0] + limit[0] + step[0]]
            case.at((0, 1))
            case.put(index[1], limit[1], step[1], i(77))
            case.run(1, *((number, 1, 0, 1, operand) if operand else (70, 1, 0, 3)))


# ---- the mark, and the operand that it keeps

def marks():
    def answer(word, p):
        """A state whose mark is a word, at instruction p, which is a Return where p is 2. "a kept byte above 3 is unfit"."""
        number, operand = word % 256, word // 256
        if operand > 3 or number not in (70, *LUA_ERRORS) and not (number == 0 and p == 2):
            return 60, 0, 0, 0, 0
        return number, 0, 0, p, operand if number in LUA_ERRORS else 0

    image = [proto(2, 0, [], [op('Move', 1, 0), op('Move', 0, 1), op('Return', 0, 2)])]
    above = [255 * 256, 2**16, 2**16 + 256, 2**24, 2**32, 2**32 + 512, 2**40, 2**63, 2**64 - 256]
    for p, what in ((0, 'at a Move'), (2, 'at a Return')):
        case = Case('mark: every number, %s' % what, image)
        case.clear()
        for byte in (0, 3, 4) if p == 0 else (0, 3):
            for number in range(256):
                word = number + 256 * byte
                case.at((0, p), mark=word)
                case.stands(*answer(word, p))
        for number in (0, 34, 45, 50, 70):
            case = Case('mark: %d with bytes from 0 on, %s' % (number, what), image)
            case.clear()
            for word in [number + 256 * byte for byte in range(256 if number == 34 and p == 0 else 8)] + [number + more for more in above]:
                case.at((0, p), mark=word)
                case.run(0, *answer(word, p))
                if number != 70 and word < 2048:
                    case.run(1000, *answer(word, p))

    for byte in range(4):
        case = Case('mark: byte %d of a running machine is left alone until it finishes' % byte, image)
        case.clear()
        case.at((0, 0), mark=70 + 256 * byte)
        for budget, p in ((0, 0), (1, 1), (0, 1), (1, 2)):
            case.stands(70, 0, 0, p - budget)
            case.run(budget, 70, budget, 0, p)
            case.keeps(70, byte)
        case.run(1, 0, 1, 0, 2)
        case.keeps(0, 0)
        case = Case('mark: byte %d of a finished machine is left alone until it starts' % byte, image)
        case.clear()
        case.at((0, 2), mark=256 * byte)
        for budget in (0, 1, 1000):
            case.run(budget, 0, 0, 0, 2)
            case.stands(0, 0, 0, 2)
        case.start((20, 0, 0), fn(0))
        case.keeps(0, byte)
        case.start(0)
        case.keeps(70, 0)
        case = Case('mark: byte %d through calls and returns' % byte, NESTED)
        case.start(0)
        case.set('f', 0, 70 + 256 * byte)
        for place in ((0, 1), (0, 2), (1, 0), (1, 1), (1, 2), (2, 0), (2, 1), (1, 3), (0, 3)):
            case.run(1, 70, 1, *place)
            case.keeps(70, byte)
        case.run(1, 0, 1, 0, 3)
        case.keeps(0, 0)
        case = Case('mark: byte %d and a fault, which sets no mark' % byte, [proto(2, 0, [], [op('Move', 1, 0), op(39), RETURN])])
        case.clear()
        case.at((0, 0), mark=70 + 256 * byte)
        case.run(5, 60, 1, 0, 1)
        case.keeps(70, byte)

    # What a run sets names its own operand, whatever was kept.
    code = [op('Add', 2, 0, 1), op('Less', 0, 0, 1), op('NumericForLoop', 0, 0), op('IDiv', 2, 0, 0), op('Call', 1, 0, 0), RETURN, RETURN]
    for byte in range(4):
        case = Case('mark: an error over byte %d' % byte, [proto(4, 0, [i(0), i(1)], code)])
        case.clear()
        for p, values, number, operand in (
                (0, (NIL, i(1)), 30, 1), (0, (i(1), NIL), 30, 2), (1, (NIL, NIL), 43, 1), (1, (f(1.0), NIL), 43, 2), (2, (i(1), i(3), NIL), 30, 3),
                (2, (i(1), NIL, NIL), 30, 2), (3, (i(0),), 45, 2), (4, (NIL, i(1)), 50, 0)):
            case.at((0, p), mark=70 + 256 * byte)
            case.put(*values)
            case.run(1000, number, 1, 0, p, operand)
            case.run(1000, number, 0, 0, p, operand)
    case = Case('mark: 51 and 52 over byte 3', [
        proto(128, 0, [], [op('Call', 0, 0, 0), RETURN]), proto(255, 0, [], [op('Call', 0, 0, 0), RETURN])])
    case.clear()
    case.at(*[(0, 1)] * 15, (0, 0), mark=70 + 256 * 3)
    case.put(fn(0), first=15 * 128)
    case.run(1, 51, 1, 0, 0)
    case.run(1, 51, 0, 0, 0)
    case.at(*[(0, 1)] * 14, (0, 0), mark=70 + 256 * 3)
    case.put(fn(1), first=14 * 128)
    case.run(1, 52, 1, 0, 0)
    case.run(1, 52, 0, 0, 0)
    for word in (34 + 256, 45 + 512, 30 + 768, 70 + 256, 34 + 1024, 70 + 65536, MOST):
        case = Case('mark: a start over %d' % word, image)
        case.clear()
        case.at((0, 0), mark=word)
        case.start(0)
        case.keeps(70, 0)
        case.run(1000, 0, 3, 0, 2)


# Operands, number and named operand of every operation that can name one, each way.
FAILURES = {
    'Add': [((TRUE, i(1)), 30, 1), ((i(1), s(0)), 30, 2)],
    'Sub': [((fn(0), i(1)), 31, 1), ((f(0.5), NIL), 31, 2)],
    'Mul': [((s(0), NIL), 32, 1), ((i(2), fn(0)), 32, 2)],
    'Div': [((NIL, NIL), 33, 1), ((i(1), FALSE), 33, 2)],
    'IDiv': [((NIL, i(0)), 34, 1), ((i(0), NIL), 34, 2), ((i(7), i(0)), 45, 2), ((i(0), i(0)), 45, 2)],
    'Mod': [((NIL, f(0.0)), 35, 1), ((i(0), NIL), 35, 2), ((i(7), i(0)), 46, 2), ((i(SMALLEST), i(0)), 46, 2)],
    'Minus': [((s(0),), 36, 1)],
    'BitAnd': [((f(1.5), NIL), 37, 1), ((i(1), f(1.5)), 37, 2)],
    'BitOr': [((f(2.0**63), i(1)), 38, 1), ((i(1), f(2.0**63)), 38, 2)],
    'BitXor': [((NAN, i(1)), 39, 1), ((f(3.0), f(INF)), 39, 2)],
    'BitNot': [((f(0.5),), 40, 1)],
    'ShiftLeft': [((s(0), i(1)), 41, 1), ((i(1), s(0)), 41, 2)],
    'ShiftRight': [((NIL, s(0)), 42, 1), ((i(1), TRUE), 42, 2)],
    'Less': [((NIL, i(1)), 43, 1), ((i(1), NIL), 43, 2), ((fn(0), fn(0)), 43, 1)],
    'LessEq': [((TRUE, s(0)), 44, 1), ((s(0), i(1)), 44, 2)],
    'NumericForPrep': [((NIL, i(1), i(1)), 31, 1), ((i(1), NIL, NIL), 31, 3)],
    'NumericForLoop': [((s(0), NIL, NIL), 30, 1), ((i(1), s(0), NIL), 30, 2), ((i(1), i(2), s(0)), 30, 3)],
}
# The operands' bytes of those that don't store what they make of registers 0 and 1 into register 3.
BYTES = {**dict.fromkeys(ORDER, (0, 0, 1)), **dict.fromkeys(('Minus', 'BitNot'), (3, 0)), **dict.fromkeys(('NumericForPrep', 'NumericForLoop'), (0, 1))}


def failed():
    for name, rows in FAILURES.items():
        case = Case('failed: %s answers again' % name, [
            proto(4, 0, [b'a'], [op('Not', 3, 3), op(name, *BYTES.get(name, (3, 0, 1))), RETURN, RETURN])])
        for values, number, operand in rows:
            case.start(0)
            case.put(*values)
            case.run(1000, number, 2, 0, 1, operand)
            case.stands(number, 0, 0, 1, operand)
            for budget in (0, 1, 1000):
                case.run(budget, number, 0, 0, 1, operand)


# ---- calls

def calls():
    for value in (NIL, FALSE, TRUE, i(0), i(1), f(1.0), s(0)):
        case = Case('50: kind %d, word %x' % value, [proto(3, 0, [b'a'], [op('Call', 0, 1, 2), RETURN]), proto(1, 0, [], [RETURN])])
        case.start(0)
        case.put(value, i(4), i(5))
        case.run(0, 70, 0, 0, 0)
        case.run(3, 50, 1, 0, 0)
        case.run(3, 50, 0, 0, 0)
        case.run(0, 50, 0, 0, 0)
    for arguments in range(4):
        for parameters in range(4):
            case = Case('Call: %d arguments, %d parameters' % (arguments, parameters), [
                proto(5, 0, [], [op('Closure', 0, 1), op('Call', 0, arguments, 0), op('Call', 0, arguments, 0), RETURN]),
                proto(3, parameters, [i(8)], [op('LoadConstant', 2, 0), RETURN])])
            case.start(0)
            case.put(i(11), OTHER_NAN, TRUE, first=1)
            case.run(2, 70, 2, 1, 0)
            case.run(2, 70, 2, 0, 2)
            case.run(1, 70, 1, 1, 0)
            case.run(9, 0, 3, 0, 3)
    for returned in range(4):
        for asked in range(4):
            case = Case('Return: %d values, %d asked' % (returned, asked), [
                proto(5, 0, [], [op('Closure', 1, 1), op('Call', 1, 0, asked), op('Return', 0, 5)]),
                proto(4, 0, [i(8), f(-0.0), b'x', OTHER_NAN], [*[op('LoadConstant', at, at) for at in range(4)], op('Return', 1, returned)])])
            case.start(0)
            case.put(i(1), i(2), i(3), i(4), i(5))
            case.run(6, 70, 6, 1, 4)
            case.run(1, 70, 1, 0, 2)
            case.run(1, 0, 1, 0, 2)
            case.run(1, 0, 0, 0, 2)
    case = Case('Return: all 254 for 254', [
        proto(255, 0, [], [op('Closure', 1, 1), op('Call', 1, 253, 254), op('Return', 1, 254)]),
        proto(255, 255, [], [op('Return', 1, 254)])])
    case.start(0)
    case.put(i(3), i(4), first=253)
    case.run(2, 70, 2, 1, 0)
    case.put(i(6), i(7), first=255 + 253)
    case.run(1, 70, 1, 0, 2)
    case.run(1, 0, 1, 0, 2)
    case = Case('Return: the function itself is handed down, and is called again', [
        proto(3, 0, [], [op('Closure', 0, 1), op('Move', 1, 0), op('Call', 0, 1, 1), op('Call', 0, 0, 1), op('Return', 0, 1)]),
        proto(1, 1, [], [op('Return', 0, 1)])])
    case.start(0)
    case.run(4, 70, 4, 0, 3)
    case.run(9, 0, 3, 0, 4)
    case = Case('windows: each of its own size, and what they leave', NESTED)
    case.start(0)
    for after in ((0, 1), (0, 2), (1, 0), (1, 1), (1, 2), (2, 0), (2, 1), (1, 3), (0, 3)):
        case.run(1, 70, 1, *after)
    case.run(1, 0, 1, 0, 3)
    case = Case('windows: a callee of more registers, then one of fewer, over what is left', [
        proto(2, 0, [], [op('Closure', 0, 1), op('Call', 0, 0, 0), op('Closure', 0, 2), op('Call', 0, 0, 2), op('Return', 0, 2)]),
        proto(4, 0, [i(1)], [op('LoadConstant', 0, 0), op('Move', 3, 0), op('Move', 2, 0), RETURN]),
        proto(2, 0, [], [op('Not', 1, 0), op('Return', 0, 2)])])
    case.start(0)
    case.run(6, 70, 6, 0, 2)
    case.run(2, 70, 2, 2, 0)
    case.run(9, 0, 3, 0, 4)

    itself = [proto(2, 1, [], [op('Closure', 0, 0), op('Call', 0, 1, 1), op('Return', 0, 2)])]
    case = Case('51: 16 activations are live, 15 calls work', itself)
    case.start(0)
    case.run(30, 70, 30, 0, 0)
    case.run(1, 70, 1, 0, 1)
    case.run(5, 51, 1, 0, 1)
    case.run(5, 51, 0, 0, 1)
    case.run(0, 51, 0, 0, 1)
    case = Case('51: in one run', itself)
    case.start(0)
    case.run(1000, 51, 32, 0, 1)
    case = Case('51: 16 activations return one after the other', [
        proto(3, 1, [i(1), i(15)], [
            op('Eq', 1, 0, 1, flags=2), op('Jump', 1), op('Return', 0, 1), op('Closure', 1, 0), op('Add', 2, 0, 0, flags=2), op('Call', 1, 1, 1),
            op('Return', 1, 1)])])
    case.start(0, i(0))
    # Five instructions to a call from each of 15; two to return from the sixteenth, then one from each of 15.
    case.run(15 * 5 + 1, 70, 15 * 5 + 1, 0, 2)
    case.run(15, 70, 15, 0, 6)
    case.run(9, 0, 1, 0, 6)
    case = Case('50 before 51', [proto(2, 1, [], [op('Call', 0, 0, 0), op('Closure', 0, 0), op('Call', 0, 0, 0), RETURN])])
    case.clear()
    case.at(*[(0, 3)] * 15, (0, 0))
    case.run(1, 50, 1, 0, 0)
    case.at(*[(0, 3)] * 15, (0, 1))
    case.run(2, 51, 2, 0, 2)
    wide = [proto(128, 0, [], [op('Closure', 0, 0), op('Call', 0, 0, 0), RETURN])]
    case = Case('16 windows of 128 registers are 2,048: 51, not 52', wide)
    case.start(0)
    case.run(1000, 51, 32, 0, 1)
    for last, answer in ((8, (70, 16, 1, 0)), (9, (52, 16, 0, 1))):
        case = Case('52: 8 windows of 255 registers, and one of %d' % last, [
            proto(255, 1, [i(7)], [
                op('Closure', 0, 1), op('Call', 0, 0, 0), RETURN]),
            proto(last, 0, [], [op('Return', 0, 1)])])
        case.clear()
        case.at(*[(0, 2)] * 7, (0, 0))
        case.run(2, answer[0], 2, *answer[2:])
        if last == 8:
            case.run(1, 70, 1, 0, 2)
            case.run(8, 0, 8, 0, 2)
        else:
            case.run(0, 52, 0, 0, 1)
            case.run(9, 52, 0, 0, 1)
    case = Case('52: the ninth window of 255', [proto(255, 0, [], [op('Closure', 0, 0), op('Call', 0, 0, 0), RETURN])])
    case.start(0)
    case.run(1000, 52, 16, 0, 1)
    case.run(1000, 52, 0, 0, 1)
    case = Case('51 before 52', [
        proto(128, 0, [], [op('Closure', 0, 0), op('Call', 0, 0, 0), RETURN]), proto(255, 0, [], [op('Call', 254, 0, 0), RETURN])])
    case.clear()
    case.at(*[(0, 2)] * 15, (0, 1))
    case.put(fn(1), first=15 * 128)
    case.run(1, 51, 1, 0, 1)
    case = Case('50 before 52', [proto(255, 0, [], [op('Call', 0, 0, 0), RETURN])])
    case.clear()
    case.at(*[(0, 1)] * 7, (0, 0))
    case.run(1, 50, 1, 0, 0)
    case.at(*[(0, 1)] * 7, (0, 0))
    case.put(fn(0), first=7 * 255)
    case.run(1, 52, 1, 0, 0)
    case = Case('an error in a callee: the caller stays after its Call', [
        proto(2, 0, [], [op('Closure', 0, 1), op('Call', 0, 0, 1), RETURN]), proto(2, 0, [], [op('LoadBool', 0, 1), op('Minus', 1, 0), RETURN])])
    case.start(0)
    case.run(9, 36, 4, 1, 1, 1)
    case.run(9, 36, 0, 1, 1, 1)
    case = Case('a Call from the second activation of values of the third constant table', [
        proto(2, 0, [b'p'], [op('Closure', 0, 1), op('Call', 0, 0, 2), op('Return', 0, 2)]),
        proto(3, 0, [b'q', b'r'], [op('LoadConstant', 0, 1), op('Closure', 1, 2), op('Call', 1, 0, 2), op('Return', 0, 2)]),
        proto(2, 0, [b's', i(6)], [op('LoadConstant', 0, 0), op('Add', 1, 1, 1, flags=3), op('Return', 0, 2)])])
    case.start(0)
    case.run(20, 0, 10, 0, 2)


# ---- budgets

def budgets():
    session = [proto(1, 0, [i(7)], [op('LoadConstant', 0, 0), op('Return', 0, 1)])]
    w13 = [proto(4, 0, [i(1), i(3)], [
        op('LoadConstant', 0, 0), op('LoadConstant', 1, 1), op('LoadConstant', 2, 0), op('NumericForPrep', 0, 0), op('NumericForLoop', 0, -1), RETURN])]
    fails = [proto(2, 0, [], [op('LoadBool', 0, 1), op('Closure', 1, 1), op('Call', 1, 0, 0), RETURN]),
             proto(1, 0, [], [op('LoadNil', 0, 1), op('ShiftRight', 0, 0, 0), RETURN])]
    last = [proto(2, 0, [], [op('LoadNil', 0, 2), op('Less', 0, 0, 1), RETURN, RETURN])]
    calls_nil = [proto(2, 0, [], [op('LoadNil', 0, 2), op('Call', 1, 0, 0), RETURN])]
    for what, image, total, number, place in (
            ('the session of document 01', session, 2, 0, (0, 1)), ('W13', w13, 9, 0, (0, 5)), ('three prototypes', NESTED, 10, 0, (0, 3)),
            ('an error in a callee', fails, 5, 42, (1, 1, 1)), ('an error', last, 2, 43, (0, 1, 1)), ('a Call of nil', calls_nil, 2, 50, (0, 1))):
        case = Case('budgets: %s' % what, image)
        for budget in sorted({0, 1, total - 1, total, total + 1, 1000000, 2**32 - 1}):
            case.start(0)
            if budget < total:
                assert case.run(budget)[:2] == (70, budget)
                case.stands(70, 0, *case.machine.place())
                case.run(0, 70, 0, *case.machine.place())
                case.run(total - budget, number, total - budget, *place)
            else:
                case.run(budget, number, total, *place)
            case.stands(number, 0, *place)
            case.run(0, number, 0, *place)
            case.run(5, number, 0, *place)
        case = Case('two runs against one: %s' % what, image)
        case.start(0)
        for first in range(total + 1):
            case.run(first)
            if first < total:
                case.run(total - first, number, total - first, *place)
            case.start(0)
        for _ in range(total - 1):
            case.run(1)
        case.run(1, number, 1, *place)
    case = Case('budgets: no end', [proto(1, 0, [], [op('Jump', -1)])])
    case.start(0)
    for budget in (0, 1, 2, 100000):
        case.run(budget, 70, budget, 0, 0)


# ---- an image that is not accepted

def faults():
    for number, what, five in BROKEN:
        image = [proto(4, 0, [NIL], [op('Closure', 3, 1), five, RETURN]), proto(1, 0, [], [RETURN])]
        case = Case('fault: %d, %s' % (number, what), image)
        case.start((number, 0, 1))
        case.clear()
        case.at((0, 0))
        case.run(1, 70, 1, 0, 1)
        case.run(3, 60, 0, 0, 1)
        case.run(0, 70, 0, 0, 1)
        case.run(3, 60, 0, 0, 1)
        case.stands(70, 0, 0, 1)
        case.at((0, 0))
        case.run(2, 60, 1, 0, 1)
        case.set('c', 1, packed(RETURN))
        case.run(3, 0, 1, 0, 1)
    case = Case('fault: nothing after the last', [proto(2, 0, [], [op('LoadBool', 0, 1), op('Move', 1, 0)])])
    case.clear()
    case.at((0, 0))
    case.run(1, 70, 1, 0, 1)
    case.run(1, 60, 0, 0, 1)
    case.run(0, 70, 0, 0, 1)
    case.run(3, 60, 0, 0, 1)
    case = Case('fault: a Call that is the last', [proto(2, 0, [], [op('Closure', 0, 0), op('Call', 0, 0, 0)])])
    case.clear()
    case.at((0, 0))
    case.run(9, 60, 1, 0, 1)
    case.run(0, 70, 0, 0, 1)
    case.run(3, 60, 0, 0, 1)
    case = Case('fault: in a callee, with steps before it', [
        proto(2, 0, [], [op('Closure', 0, 1), op('Call', 0, 0, 1), RETURN]), proto(2, 0, [], [op('LoadBool', 0, 1), op('Move', 2, 0), RETURN])])
    case.clear()
    case.at((0, 0))
    case.run(9, 60, 3, 1, 1)
    case.run(0, 70, 0, 1, 1)
    case.run(3, 60, 0, 1, 1)
    case.set('c', 4, packed(op('Move', 1, 0)))
    case.run(9, 0, 3, 0, 2)
    case = Case('a fault that nothing reaches', [
        proto(1, 0, [], [op('LoadBool', 0, 1, 1), op(39), RETURN, op(255)]), proto(1, 0, [], []), proto(2, 0, [], [op('Move', 5, 5)])])
    case.start((10, 0, 1))
    case.clear()
    case.at((0, 0))
    case.run(9, 0, 2, 0, 2)
    case.run(9, 0, 0, 0, 2)
    for what, five in (
            ('Add', op('Add', 0, 0, 0, flags=4)), ('BitNot', op('BitNot', 0, 0, 1)), ('Less', op('Less', 2, 0, 0)), ('Call', op('Call', 0, 2, 0)),
            ('Prep', op('NumericForPrep', 0, 7)), ('NumericForLoop', op('NumericForLoop', 0, 0, flags=1))):
        case = Case('60 before a Lua error: %s' % what, [proto(2, 0, [], [five, RETURN, RETURN])])
        case.clear()
        case.at((0, 0))
        case.run(1, 60, 0, 0, 0)
    case = Case('60 before 51', [proto(2, 0, [], [op('Call', 0, 2, 0), op('Call', 0, 0, 0), RETURN])])
    case.clear()
    case.at(*[(0, 2)] * 15, (0, 0))
    case.put(fn(0), first=30)
    case.run(1, 60, 0, 0, 0)
    case.at(*[(0, 2)] * 15, (0, 1))
    case.run(1, 51, 1, 0, 1)

    empty = [proto(2, 0, [], [op('Closure', 0, 1), op('Call', 0, 0, 1), RETURN]), proto(3, 1, [b'x'], []), proto(1, 0, [], [RETURN])]
    case = Case('a Call into a prototype without instructions: exact budget', empty)
    case.start((14, 1, 0))
    case.clear()
    case.at((0, 0))
    case.run(2, 70, 2, 1, 0)
    case.stands(60, 0, 0, 0)
    case.run(0, 60, 0, 0, 0)
    case.run(3, 60, 0, 0, 0)
    case = Case('a Call into a prototype without instructions: larger budget', empty)
    case.clear()
    case.at((0, 0))
    case.run(3, 60, 2, 1, 0)
    case.run(0, 60, 0, 0, 0)
    case.run(3, 60, 0, 0, 0)
    case = Case('a Call into a prototype without instructions: from its Call', empty)
    case.clear()
    case.at((0, 1))
    case.put(fn(1))
    case.run(1, 70, 1, 1, 0)
    case.run(1, 60, 0, 0, 0)
    case.at((0, 1))
    case.run(2**32 - 1, 60, 1, 1, 0)
    case = Case('a Call into a prototype without instructions: 52 before it', [proto(255, 0, [], [op('Call', 0, 0, 0), RETURN]), proto(9, 0, [], [])])
    case.clear()
    case.at(*[(0, 1)] * 7, (0, 0))
    case.put(fn(1), first=7 * 255)
    case.run(2, 52, 1, 0, 0)


# ---- what is unfit, each cause alone

def unfit():
    def nested(what):
        """Running in the third activation, before its first instruction: registers 0 to 7 are live."""
        case = Case(what, NESTED)
        case.start(0)
        case.run(6, 70, 6, 2, 0)
        return case

    def causes(what, *changes):
        """The changes make it unfit, and nothing else does: undone, it goes on."""
        case = nested('unfit: ' + what)
        old = [case.set(*change) for change in changes]
        case.stands(60, 0, 0, 0)
        case.run(0, 60, 0, 0, 0)
        case.run(4, 60, 0, 0, 0)
        for change in reversed(old):
            case.set(*change)
        case.run(4, 0, 4, 0, 3)

    def fits(what, expected, *changes):
        case = nested('fit: ' + what)
        for change in changes:
            case.set(*change)
        case.stands(*expected)
        case.run(0, *expected)
        return case

    # slices
    for at, slice in enumerate(SLICES.values()):
        case = nested('unfit: %s is one cell short; not where it is one longer' % slice)
        lend = ALL[:at] + '0' + ALL[at + 1:]
        case.stands(60, 0, 0, 0, lend=lend)
        case.run(0, 60, 0, 0, 0, lend=lend)
        case.run(4, 60, 0, 0, 0, lend=lend)
        case.run(4, 0, 4, 0, 3, lend=lend.replace('0', '2'))
        case.run(4, 60, 0, 0, 0, lend=lend)
        case.run(4, 0, 0, 0, 3)

    # storage: 1 prototypes; 1 to 4 the first, 5 to 8 the second, 9 to 12 the third, 13 to 16 the closing entry
    for what, change in (
            ('two prototypes are told of three', ('t', 0, 2)), ('four prototypes are told of three', ('t', 0, 4)), ('no prototype', ('t', 0, 0)),
            ('33 prototypes', ('t', 0, 33)), ('2^64 - 1 prototypes', ('t', 0, MOST)), ('no registers', ('t', 5, 0)), ('256 registers', ('t', 5, 256)),
            ('more parameters than registers', ('t', 10, 3)), ('the first constant is not the first', ('t', 3, 1)),
            ('the second prototype has its first constant after its last', ('t', 7, 5)), ('the first instruction is not the first', ('t', 4, 1)),
            ('the second prototype has its first instruction after its last', ('t', 8, 9)), ('the closing entry has registers', ('t', 13, 1)),
            ('the closing entry has parameters', ('t', 14, 1)), ('the constants end before they begin', ('t', 15, 3)),
            ('257 constants', ('t', 15, 4 + 257)), ('4,097 instructions', ('t', 16, 8 + 4097)), ('2^64 - 1 instructions', ('t', 16, MOST)),
            ('an instruction of more than five bytes', ('c', 9, 2**40)), ('a constant of kind 5', ('k', 0, 5)), ('a constant of kind 255', ('k', 3, 255)),
            ('a string that is called an integer, and one after it that is not where the texts are passed up to', ('k', 1, 2)),
            ('a nil with a word', ('k', 0, 0)), ('a boolean 5', ('k', 0, 1)), ('a string of 65 bytes', ('w', 3, 65536 + 65)),
            ('a string that starts too late', ('w', 1, 65536 + 1)), ('a string that starts too early', ('w', 3, 1))):
        case = nested('unfit: 6, %s' % what)
        letter, at, old = case.set(*change)
        case.stands(60, 0, 0, 0)
        case.run(4, 60, 0, 0, 0)
        case.start((6, 0, 0))
        case.set(letter, at, old)
        case.run(4, 0, 4, 0, 3)
    case = nested('unfit: 6, one instruction more than 65,536 bytes can say')
    # Three prototypes take 21 bytes, the constants 56, the end 5, each instruction 13.
    case.set('t', 12, 4 + 4096)
    case.set('t', 16, 4 + 4096 + 934)
    case.run(0, 70, 0, 2, 0)
    case.set('t', 16, 4 + 4096 + 935)
    case.run(0, 60, 0, 0, 0)
    case.set('t', 16, 4 + 4096 + 934)
    case.run(3, 70, 3, 2, 3)
    fits('what lies beyond the used storage', (70, 0, 2, 0), ('t', 17, 5), ('c', 10, MOST), ('k', 4, 9), ('w', 4, 9), ('x', 2, 9)).run(4, 0, 4, 0, 3)

    # the mark
    for mark in (1, 2, 5, 10, 20, 29, 47, 49, 55, 60, 69, 71, 255, 256, 2**32, 2**32 + 70, MOST):
        causes('mark %d' % mark, ('f', 0, mark))
    for mark in LUA_ERRORS:
        case = fits('mark %d, whatever its instruction' % mark, (mark, 0, 2, 0, 0), ('f', 0, mark))
        case.run(5, mark, 0, 2, 0, 0)

    # the activations
    for depth in (0, 4, 16, 17, 18, 255, 2**32 + 3, MOST):
        causes('%d activations' % depth, ('f', 1, depth))
    case = Case('unfit: 17 activations; 16 are not', [proto(1, 0, [], [op('Call', 0, 0, 0), RETURN])])
    case.clear()
    case.at(*[(0, 1)] * 16)
    case.run(0, 70, 0, 0, 1)
    case.set('f', 1, 17)
    case.run(0, 60, 0, 0, 0, lend='11111211')
    case.run(3, 60, 0, 0, 0)
    fits('the second activation is the innermost', (70, 0, 1, 3), ('f', 1, 2)).run(9, 0, 2, 0, 3)
    fits('the first activation is the only one', (70, 0, 0, 3), ('f', 1, 1)).run(9, 0, 1, 0, 3)
    for last, fit in ((8, True), (9, False)):
        case = Case('%s: 8 windows of 255 registers and one of %d' % ('fit' if fit else 'unfit', last), [
            proto(255, 0, [], [op('Call', 0, 0, 0), RETURN]), proto(last, 0, [], [op('Return', 0, last)])])
        case.clear()
        case.at(*[(0, 1)] * 8, (1, 0))
        if fit:
            case.run(0, 70, 0, 1, 0)
            case.run(9, 0, 9, 0, 1)
        else:
            case.run(0, 60, 0, 0, 0)
            case.run(9, 60, 0, 0, 0)
    case = Case('unfit: 16 windows of 255 registers', [proto(255, 0, [], [op('Call', 0, 0, 0), RETURN])])
    case.clear()
    case.at(*[(0, 1)] * 16)
    case.run(9, 60, 0, 0, 0)
    case.at(*[(0, 1)] * 8)
    case.run(9, 0, 8, 0, 1)
    case = Case('unfit: 16 windows of 128 registers and one register more', [
        proto(128, 0, [], [op('Call', 0, 0, 0), RETURN]), proto(129, 0, [], [op('Call', 0, 0, 0), RETURN])])
    case.clear()
    case.at(*[(0, 1)] * 16)
    case.run(0, 70, 0, 0, 1)
    for at in (0, 7, 15):
        places = [(0, 1)] * 16
        places[at] = (1, 1)
        case.at(*places)
        case.run(0, 60, 0, 0, 0)

    # prototypes and instructions
    for slot, who in ((2, 'the first activation'), (4, 'a suspended activation'), (6, 'the innermost activation')):
        for q in (3, 32, 255, 2**32, MOST):
            causes('%s names prototype %d of 3' % (who, q), ('f', slot, q))
    for p in (2, 3, 4096, 2**32, MOST):
        causes('the innermost activation names instruction %d of 2' % p, ('f', 7, p))
    for slot, who in ((3, 'the first activation'), (5, 'a suspended activation')):
        for p in (4, 5, 4096, 2**32, MOST):
            causes('%s names instruction %d of 4' % (who, p), ('f', slot, p))
        for p in (0, 1, 2):
            causes('%s stands at %d, not after a Call' % (who, p), ('f', slot, p))
    fits('the innermost activation stands at its last instruction', (70, 0, 2, 1), ('f', 7, 1)).run(9, 0, 3, 0, 3)
    # entry 0 is of prototype 1
    fits('the innermost activation is of another prototype', (70, 0, 1, 3), ('f', 6, 1), ('f', 7, 3), ('f', 36, 1), ('r', 8, 0), ('v', 8, 0))
    case = Case('unfit: the instruction after the last one, which is a Call', [proto(1, 0, [], [RETURN, op('Call', 0, 0, 0)])])
    case.clear()
    case.at((0, 2), (0, 0))
    case.run(0, 60, 0, 0, 0)
    for what, five in (
            ('10, 255 arguments', op('Call', 1, 255, 2)), ('10, 255 values', op('Call', 1, 1, 255)), ('11', op('Call', 1, 1, 2, flags=1)),
            ('11, flag 128', op('Call', 1, 1, 2, flags=128)), ('12, arguments', op('Call', 1, 2, 2)), ('12, values', op('Call', 1, 1, 3)),
            ('10, operation 11', (11, 0, 1, 1, 2)), ('a Return', op('Return', 1, 1)), ('a Move', op('Move', 1, 1))):
        causes('a suspended activation stands after a Call that breaks a rule: %s' % what if what[0] == '1' else
               'a suspended activation stands after %s' % what, ('c', 6, packed(five)))
    fits('the Call of a suspended activation is another', (70, 0, 2, 0), ('c', 6, packed(op('Call', 0, 0, 3)))).run(9, 0, 4, 0, 3)
    fits('the function of a suspended Call is none', (70, 0, 2, 0), ('r', 4, 0), ('v', 4, 0)).run(9, 0, 4, 0, 3)
    fits('the first activation is of prototype 1', (70, 0, 2, 0), ('f', 2, 1), ('f', 3, 3)).run(9, 0, 4, 1, 3)
    for number, what, five in BROKEN[:12:3]:
        case = fits('the innermost instruction breaks a rule, %s' % what, (70, 0, 2, 0), ('c', 8, packed(five)))
        case.run(9, 60, 0, 2, 0)
        case = fits('failed at an instruction that breaks a rule, %s' % what, (41, 0, 2, 0, 0), ('c', 8, packed(five)), ('f', 0, 41))
        case.run(9, 41, 0, 2, 0, 0)

    # finished
    causes('finished with three activations', ('f', 0, 0))
    causes('finished with three activations at a Return', ('f', 0, 0), ('f', 7, 1))
    causes('finished with two activations at a Return', ('f', 0, 0), ('f', 1, 2))
    causes('finished with no activation', ('f', 0, 0), ('f', 1, 0))
    fits('finished with one activation', (0, 0, 0, 3), ('f', 0, 0), ('f', 1, 1)).run(5, 0, 0, 0, 3)
    fits('finished with one activation of prototype 1', (0, 0, 1, 3), ('f', 0, 0), ('f', 1, 1), ('f', 2, 1)).run(5, 0, 0, 1, 3)
    for p in (0, 1, 2):
        causes('finished at instruction %d, which is no Return' % p, ('f', 0, 0), ('f', 1, 1), ('f', 3, p))
    causes('finished at an instruction that is not there', ('f', 0, 0), ('f', 1, 1), ('f', 3, 4))
    causes('finished in a prototype that is not there', ('f', 0, 0), ('f', 1, 1), ('f', 2, 3))
    for what, five in (('10', op('Return', 0, 255)), ('11, its third byte', op('Return', 0, 1, 1)), ('11, its flags', op('Return', 0, 1, flags=2)),
                       ('12', op('Return', 0, 4)), ('12, none from 4', op('Return', 4, 0)), ('10, operation 13', (13, 0, 0, 1, 0))):
        causes('finished at a Return that breaks a rule: %s' % what, ('f', 0, 0), ('f', 1, 1), ('c', 3, packed(five)))
    fits('finished at a Return of none from register 3', (0, 0, 0, 3), ('f', 0, 0), ('f', 1, 1), ('c', 3, packed(op('Return', 3, 0))))
    causes('failed, with a register that holds no value', ('f', 0, 30), ('r', 0, 6))
    causes('failed naming 2, with a register that holds no value', ('f', 0, 30 + 512), ('r', 0, 6))
    causes('finished, with a register that holds no value', ('f', 0, 0), ('f', 1, 1), ('r', 2, 6))
    fits('finished, with a dead register that holds no value', (0, 0, 0, 3), ('f', 0, 0), ('f', 1, 1), ('r', 3, 6))
    causes('failed, with no activation', ('f', 0, 30), ('f', 1, 0))

    # live registers: 3 of the first activation, 3 of the second, 2 of the third; the constants are 5, 's', 2.0, 't'; entries 0 and 1 are in use
    nothing = [('kind 6', (6, 0)), ('kind 90', (90, 0)), ('kind 255', (255, 0)), ('boolean 2', (1, 2)), ('boolean 2^64 - 1', (1, MOST)),
               ('boolean 256', (1, 256)), ('nil with word 1', (0, 1)), ('nil with word 2^63', (0, 2**63)),
               ('function 2, a free entry', fn(2)), ('function 63, a free entry', fn(63)), ('function 64', fn(64)), ('function 2^32', fn(2**32)),
               ('function 2^64 - 1', fn(MOST)), ('string 4 of 4', s(4)), ('string 0, an integer', s(0)),
               ('string 2, a number', s(2)), ('string 2^32 + 1', s(2**32 + 1)), ('string 2^64 - 1', s(MOST))]
    for what, value in nothing:
        for r in (0, 2, 3, 7):
            causes('register %d holds %s' % (r, what), ('r', r, value[0]), ('v', r, value[1]))
        case = nested('fit: the dead registers 8 and 2,307 hold %s' % what)
        for r in (8, 2307):
            case.becomes('r', r, value[0])
            case.becomes('v', r, value[1])
        case.run(0, 70, 0, 2, 0)
        case.run(4, 0, 4, 0, 3)
    causes('register 7 holds string 4, a string beyond the constants', ('k', 4, 4), ('w', 4, 2 * 65536), ('r', 7, 4), ('v', 7, 4))
    for what, value in (('false', FALSE), ('true', TRUE), ('the smallest', i(SMALLEST)), ('a NaN', OTHER_NAN), ('string 1', s(1)),
                        ('string 3, of another prototype', s(3)), ('function 0', fn(0)), ('function 1', fn(1))):
        for r in (0, 7):
            fits('register %d holds %s' % (r, what), (70, 0, 2, 0), ('r', r, value[0]), ('v', r, value[1])).run(4, 0, 4, 0, 3)
    case = Case('unfit: registers 2,047 and 2,048', [
        proto(255, 0, [], [op('Call', 0, 0, 0), RETURN]), proto(8, 0, [], [op('Return', 0, 8)])])
    case.clear()
    case.at(*[(0, 1)] * 8, (1, 0))
    case.set('r', 2048, 6)
    case.run(0, 70, 0, 1, 0)
    case.set('r', 2047, 6)
    case.run(0, 60, 0, 0, 0)
    case.set('r', 2047, 5)
    case.run(1, 70, 1, 0, 1)
    case = Case('unfit: nothing was started', NESTED)
    case.run(0, 60, 0, 0, 0)
    case.run(5, 60, 0, 0, 0)
    case.clear()
    case.run(5, 60, 0, 0, 0)
    case = Case('unfit: an image of no prototypes', [])
    case.clear()
    case.at((0, 0))
    case.run(5, 60, 0, 0, 0)
    case.at((0, 0), mark=0)
    case.run(5, 60, 0, 0, 0)
    case = Case('unfit: a prototype without instructions', [proto(1, 0, [], [])])
    case.clear()
    case.at((0, 0))
    case.run(5, 60, 0, 0, 0)


# ---- closures: document 02, 6/12

def starts_with_closures():
    case = Case('closures: a start frees every entry and every cell', [proto(2, 0, [], [op('Closure', 0, 1), RETURN]), proto(1, 0, [], [RETURN])])
    for at in range(HELD, END):
        case.becomes('f', at, at)
    for at in range(VALUES, VALUES_END):
        case.becomes('r', at, 1 + at % 6)
        case.becomes('v', at, at)
    case.start((20, 0, 0), fn(0))
    case.start((5, 0, 0), lend='11111011')
    case.start(0)
    case.free(0, 0)
    case.run(0, 70, 0, 0, 0)
    case.run(1, 70, 1, 0, 1)
    case.made(0, 1)
    case = Case('closures: a start over entries and cells in use', CAPTURED)
    for _ in range(2):
        case.start(0)
        case.free(0, 0)
        case.run(9, 70, 9, 2, 0)
    case.start((5, 0, 0), lend='11111101')
    case.run(7, 0, 7, 0, 6)
    case.start(0)
    case.free(0, 0)
    for what, protos in (
            ('descriptors on prototype 0', [proto(1, 0, [], [RETURN], [(0, 0)])]),
            ('a descriptor out of range', [proto(1, 0, [], [op('Closure', 0, 1), RETURN]), proto(1, 0, [], [RETURN], [(0, 1)])])):
        case = Case('closures: start: 16 before 20, %s' % what, protos)
        case.set('f', entry_at(3), 2)
        case.start((16, 0, 0))
        case.start((16, 0, 0), fn(0))
    for what, change in (('9 descriptors', ('t', 142, 9)), ('a descriptor 512', ('t', 143, 512)), ('a descriptor 2^64 - 1', ('t', 144, MOST))):
        case = Case('closures: 6, %s' % what, CAPTURED)
        case.start(0)
        case.run(2, 70, 2, 0, 2)
        letter, at, old = case.set(*change)
        case.start((6, 0, 0))
        case.stands(60, 0, 0, 0)
        case.run(1, 60, 0, 0, 0)
        case.set(letter, at, old)
        case.run(14, 0, 14, 0, 6)
    case = Case('closures: what the table holds behind the descriptors', CAPTURED)
    for at in (134, 141, 145, 150, 178, 420):
        case.set('t', at, MOST)
    case.start(0)
    case.run(100, 0, 16, 0, 6)


# In the third activation after nine instructions, with cells open in the first two windows and one that is closed; sixteen in all.
CAPTURED = [
    proto(4, 0, [i(5), b's'], [
        op('Closure', 3, 3), op('Jump', 3, 0), op('LoadConstant', 0, 0), op('LoadConstant', 1, 1), op('Closure', 2, 1), op('Call', 2, 0, 1),
        op('Return', 0, 4)]),
    proto(3, 0, [], [op('GetUpValue', 0, 0), op('Closure', 1, 2), op('Call', 1, 0, 1), op('Return', 1, 1)], [(0, 0), (0, 1)]),
    proto(2, 0, [], [
        op('GetUpValue', 0, 1), op('SetUpValue', 0, 0), op('Closure', 1, 4), op('SetUpValue', 2, 1), op('Return', 0, 1)], [(0, 0), (1, 1), (0, 2)]),
    proto(1, 0, [], [op('GetUpValue', 0, 0), op('Return', 0, 1)], [(0, 3)]),
    proto(1, 0, [], [RETURN]),
]


def closures():
    case = Case('closures: one run, step by step', CAPTURED)
    case.start(0)
    case.run(1, 70, 1, 0, 1)
    case.made(0, 3, 0)
    case.opened(3)
    case.holds(NIL, NIL, NIL, fn(0))
    case.run(1, 70, 1, 0, 2)
    case.closed(fn(0))
    case.run(3, 70, 3, 0, 5)
    case.made(1, 1, 1, 2)
    case.opened(0, 1, first=1)
    case.free(2, 3)
    case.run(1, 70, 1, 1, 0)
    assert case.machine.frames[HELD:HELD + 2] == [0, 2]
    case.run(2, 70, 2, 1, 2)
    case.holds(i(5), fn(2), NIL, first=4)
    case.made(2, 2, 3, 2, 4)
    case.opened(4, 6, first=3)
    case.run(1, 70, 1, 2, 0)
    assert case.machine.frames[HELD:HELD + 3] == [0, 2, 3]
    case.run(4, 70, 4, 2, 4)
    case.holds(s(1), fn(2), fn(3), s(1), fn(3), first=4)
    case.made(3, 4)
    case.run(1, 70, 1, 1, 3)
    case.opened(4, 6, first=3)
    case.run(1, 70, 1, 0, 6)
    case.closed(s(1), fn(3), first=3)
    case.opened(0, 1, first=1)
    case.holds(i(5), s(1), s(1), fn(0))
    case.run(1, 0, 1, 0, 6)
    case.closed(fn(0), i(5), s(1), s(1), fn(3))
    case.run(5, 0, 0, 0, 6)
    case = Case('closures: two runs against one', CAPTURED)
    for first in range(17):
        case.start(0)
        case.run(first)
        if first < 16:
            case.run(16 - first, 0, 16 - first, 0, 6)
    case.start(0)
    for _ in range(15):
        case.run(1)
    case.run(1, 0, 1, 0, 6)

    # Of one value each: what a closure reads and sets is the register, and once it is closed the cell.
    values = [NIL, FALSE, TRUE, i(SMALLEST), f(-0.0), OTHER_NAN, s(0), fn(0), fn(1)]
    reads = proto(2, 0, [], [op('GetUpValue', 1, 0), op('SetUpValue', 0, 0), RETURN], [(0, 2)])
    for what, word in (('an open cell', 2 + 2), ('a closed cell', 1)):
        case = Case('closures: GetUpValue and SetUpValue of %s' % what, [
            proto(3, 0, [b'x'], [op('Call', 0, 0, 0), RETURN]), reads, proto(1, 0, [], [RETURN])])
        case.clear()
        case.entry(0, 1, 0)
        case.entry(1, 2)
        case.cells(word)
        where = 2 if word > 1 else VALUES
        for old in values:
            for new in (NIL, i(7), fn(1), s(0)):
                case.at((0, 1), (1, 0))
                case.becomes('f', HELD + 1, 1)
                case.put(old, first=where)
                case.put(new, i(99), first=3)
                case.run(1, 70, 1, 1, 1)
                case.holds(new, old, first=3)
                case.run(1, 70, 1, 1, 2)
                case.holds(new, first=where)
        case.holds(*[NIL] * 2)

    case = Case('closures: upvalue 7 of 8, cells in any order', [
        proto(4, 0, [], [op('Call', 0, 0, 0), RETURN]),
        proto(2, 0, [], [op('GetUpValue', 0, 7), op('GetUpValue', 1, 0), op('SetUpValue', 6, 0), op('SetUpValue', 3, 1), RETURN], [(0, 0)] * 8)])
    case.clear()
    case.entry(5, 1, 127, 3, 9, 100, 3, 64, 126, 8)
    case.cells(2 + 1, first=3)
    case.cells(1, 2 + 2, first=8)
    case.cells(1, first=64)
    case.cells(1, first=100)
    case.cells(2 + 3, 1, first=126)
    case.at((0, 1), (1, 0))
    case.set('f', HELD + 1, 6)
    case.put(i(8), first=VALUES + 8)
    case.put(i(127), first=VALUES + 127)
    case.put(i(100), first=VALUES + 100)
    case.put(i(1), i(2), i(3), first=1)
    case.run(4, 70, 4, 1, 4)
    case.holds(NIL, i(1), i(2), i(8), i(8), i(127))
    case.closed(i(127), first=100)
    case.run(1, 70, 1, 0, 1)
    case.opened(1, first=3)

    # Whatever writes the register writes the cell, and what sets the upvalue sets the register.
    shared = [
        proto(5, 0, [i(1), i(3), i(1)], [
            op('Closure', 4, 1), op('LoadConstant', 0, 1), op('LoadConstant', 1, 1), op('LoadConstant', 2, 2), op('NumericForPrep', 0, 1),
            op('Call', 4, 0, 0), op('NumericForLoop', 0, -2), op('Closure', 4, 2), op('Call', 4, 0, 1), op('Return', 0, 5)]),
        proto(2, 0, [], [op('GetUpValue', 0, 0), op('Add', 0, 0, 0), op('SetUpValue', 0, 0), RETURN], [(0, 3)]),
        proto(1, 0, [], [op('GetUpValue', 0, 1), op('Return', 0, 1)], [(0, 0), (0, 3)])]
    case = Case('closures: a register that a loop writes and a closure sets', shared)
    case.start(0)
    while case.run(1)[0]:
        pass
    case.holds(i(4), i(3), i(1), i(6), i(6))
    case.closed(i(6), i(4))
    makers = [
        proto(3, 0, [i(40)], [op('LoadConstant', 0, 0), op('Closure', 1, 2), op('Closure', 2, 3), op('Return', 1, 2)]),
        proto(1, 0, [i(1)], [op('GetUpValue', 0, 0), op('Add', 0, 0, 0, flags=2), op('SetUpValue', 0, 0), RETURN], [(0, 0)]),
        proto(1, 0, [], [op('GetUpValue', 0, 0), op('Return', 0, 1)], [(0, 0)])]
    case = Case('closures: two over one register share it, and go on sharing when it is closed', [
        proto(4, 0, [], [op('Closure', 0, 1), op('Call', 0, 0, 2), op('Move', 2, 0), op('Call', 2, 0, 0), op('Move', 2, 0), op('Call', 2, 0, 0),
                         op('Move', 2, 1), op('Call', 2, 0, 1), op('Return', 2, 1)]), *makers])
    case.start(0)
    case.run(5, 70, 5, 1, 3)
    case.made(1, 2, 0)
    case.made(2, 3, 0)
    case.opened(4)
    case.run(1, 70, 1, 0, 2)
    case.closed(i(40))
    case.run(100, 0, 17, 0, 8)
    case.holds(i(42), first=2)
    case.closed(i(42))
    case.free(3, 1)
    case = Case('closures: each call of a maker makes cells and entries of its own', [
        proto(5, 0, [], [op('Closure', 4, 1), op('Move', 0, 4), op('Call', 0, 0, 2), op('Move', 2, 4), op('Call', 2, 0, 2), op('Eq', 1, 0, 2), RETURN,
                         op('Call', 0, 0, 0), op('Call', 1, 0, 1), op('Call', 3, 0, 1), op('Return', 0, 5)]), *makers])
    case.start(0)
    case.run(13, 70, 13, 0, 5)
    case.made(1, 2, 0)
    case.made(2, 3, 0)
    case.made(3, 2, 1)
    case.made(4, 3, 1)
    case.closed(i(40), i(40))
    # Two of one prototype aren't equal: no skip.
    case.run(1, 70, 1, 0, 6)
    case.at((0, 7))
    case.run(100, 0, 12, 0, 10)
    case.closed(i(41), i(40))
    case.holds(i(41), fn(3), i(40), first=1)


def captures():
    """What a Closure takes: the state before it by hand, in the second of two windows, whose own closure has two cells."""
    def capturing(what, descriptors, entries=(), cells=()):
        case = Case('closures: %s' % what, [
            proto(3, 0, [], [op('Call', 0, 0, 0), RETURN]), proto(4, 0, [], [op('Closure', 3, 2), op('Return', 0, 4)], [(0, 0), (0, 1)]),
            proto(1, 0, [], [RETURN], descriptors)])
        case.clear()
        case.at((0, 1), (1, 0))
        case.entry(0, 1, 0, 1)
        case.set('f', HELD + 1, 1)
        case.cells(1, 2 + 1)
        for e, cell in entries:
            case.entry(e, 1, cell, cell)
        for cell, word in cells:
            case.cells(word, first=cell)
        case.put(i(10), i(11), i(12), i(13), first=3)
        return case

    # Registers of the second window are 3 to 6.
    for what, descriptors, opened, held in (
            ('nothing', [], [], []),
            ('a register', [(0, 0)], [3], [2]),
            ('the last register, which is its dest', [(0, 3)], [6], [2]),
            ('registers in descending order', [(0, 2), (0, 1), (0, 0)], [5, 4, 3], [2, 3, 4]),
            ('a register twice', [(0, 1), (0, 1)], [4], [2, 2]),
            ('a register twice, another between', [(0, 1), (0, 2), (0, 1)], [4, 5], [2, 3, 2]),
            ('a closed upvalue', [(1, 0)], [], [0]),
            ('an open upvalue', [(1, 1)], [], [1]),
            ('an upvalue twice', [(1, 1), (1, 1)], [], [1, 1]),
            ('registers and upvalues', [(1, 1), (0, 0), (1, 0), (0, 3)], [3, 6], [1, 2, 0, 3]),
            ('8, of which 4 registers', [(0, 0), (1, 0), (0, 1), (1, 1), (0, 2), (1, 0), (0, 3), (1, 1)], [3, 4, 5, 6], [2, 0, 3, 1, 4, 0, 5, 1])):
        case = capturing('captures: %s' % what, descriptors)
        case.run(1, 70, 1, 1, 1)
        case.made(1, 2, *held)
        case.opened(*opened, first=2)
        case.free(2, 2 + len(opened))
        case.holds(i(10), i(11), i(12), fn(1), first=3)
        case.run(1, 70, 1, 0, 1)
        case.closed(*[(i(10), i(11), i(12), fn(1))[r - 3] for r in opened], first=2)
        case.opened(1, first=1)
    case = capturing('captures: registers that have open cells', [(0, 0), (0, 1), (0, 2)], cells=[(5, 2 + 4), (9, 2 + 3)])
    case.run(1, 70, 1, 1, 1)
    case.made(1, 2, 9, 5, 2)
    case.opened(5, first=2)
    case = capturing('captures: a register whose cell was closed', [(0, 0)], cells=[(2, 1)])
    case.run(1, 70, 1, 1, 1)
    case.made(1, 2, 3)
    case.opened(3, first=3)
    case.closed(NIL, first=2)
    case = capturing('captures: the lowest free entry and the lowest free cells', [(0, 2), (0, 0), (0, 1)], [(1, 0), (2, 0), (4, 0), (63, 0)],
                     [(3, 1), (5, 1), (127, 1)])
    case.run(1, 70, 1, 1, 1)
    case.made(3, 2, 2, 4, 6)
    case.opened(5, first=2)
    case.opened(3, first=4)
    case.opened(4, first=6)
    case = capturing('captures: what is free is written over', [(0, 2)])
    for at in range(entry_at(1) + 1, entry_at(2)):
        case.set('f', at, MOST)
    case.set('r', VALUES + 2, 77)
    case.set('v', VALUES + 2, MOST)
    case.run(1, 70, 1, 1, 1)
    case.made(1, 2, 2)
    case.opened(5, first=2)
    assert (case.machine.kinds[VALUES + 2], case.machine.words[VALUES + 2]) == (77, MOST)

    # 53, then 54
    all_entries = [(e, 0) for e in range(1, 64)]
    for what, descriptors, entries, free, number in (
            ('no entry is free, of nothing', [], all_entries, 126, 53),
            ('no entry is free', [(0, 0)], all_entries, 126, 53),
            ('no entry is free, and no cell', [(0, 0)], all_entries, 0, 53),
            ('entry 63 is free', [(0, 0)], all_entries[:-1], 126, 0),
            ('entry 1 is free', [(0, 0)], all_entries[1:], 126, 0),
            ('entry 32 is free, and no cell, which an upvalue does not need', [(1, 0), (1, 1)], [x for x in all_entries if x[0] != 32], 0, 0),
            ('nothing is captured, no cell is free', [], [], 0, 0),
            ('a register, no cell is free', [(0, 0)], [], 0, 54),
            ('a register, one cell is free', [(0, 0)], [], 1, 0),
            ('two registers, one cell is free', [(0, 0), (0, 1)], [], 1, 54),
            ('two registers, two cells are free', [(0, 0), (0, 1)], [], 2, 0),
            ('one register twice, one cell is free', [(0, 2), (0, 2)], [], 1, 0),
            ('four registers and upvalues, three cells are free', [(0, 0), (1, 0), (0, 1), (0, 2), (1, 1), (0, 3)], [], 3, 54),
            ('four registers and upvalues, four cells are free', [(0, 0), (1, 0), (0, 1), (0, 2), (1, 1), (0, 3)], [], 4, 0),
            ('entry 63 and one cell are free, of two', [(0, 0), (0, 1)], all_entries[:-1], 1, 54)):
        case = capturing('%d: %s' % (number, what), descriptors, entries, [(cell, 1) for cell in range(2, 128 - free)])
        if not number:
            case.run(1, 70, 1, 1, 1)
            continue
        before = list(case.machine.frames)
        case.run(0, 70, 0, 1, 0)
        case.run(3, number, 1, 1, 0)
        assert case.machine.frames[1:] == before[1:]
        case.holds(i(10), i(11), i(12), i(13), first=3)
        for budget in (0, 5):
            case.run(budget, number, 0, 1, 0)
    case = capturing('54: a register that has an open cell needs none', [(0, 0), (0, 1)], [], [(cell, 1) for cell in range(2, 128)])
    case.run(1, 54, 1, 1, 0)
    case.at((0, 1), (1, 0))
    case.set('f', HELD + 1, 1)
    case.cells(2 + 4, first=77)
    case.run(1, 54, 1, 1, 0)
    case.at((0, 1), (1, 0))
    case.set('f', HELD + 1, 1)
    case.cells(2 + 3, first=127)
    case.run(1, 70, 1, 1, 1)
    case.made(1, 2, 127, 77)

    maker = [proto(3, 0, [], [op('Closure', 0, 1), op('Jump', -2), RETURN]), proto(1, 0, [], [RETURN])]
    case = Case('53: the 65th closure of a prototype without descriptors', maker)
    case.start(0)
    case.run(127, 70, 127, 0, 1)
    case.made(63, 1)
    case.holds(fn(63))
    case.run(1, 70, 1, 0, 0)
    case.run(9, 53, 1, 0, 0)
    case.run(9, 53, 0, 0, 0)
    case.start(0)
    case.run(200, 53, 129, 0, 0)
    closing = [proto(4, 0, [], [op('Closure', 3, 1), op('Jump', 0, -2), RETURN]), proto(1, 0, [], [RETURN], [(0, 0), (0, 1), (0, 2)])]
    case = Case('54: closed cells stay in use', closing)
    case.start(0)
    # 42 times three cells: two are left for the 43rd.
    case.run(84, 70, 84, 0, 0)
    case.closed(*[NIL] * 126)
    case.made(41, 1, 123, 124, 125)
    case.run(9, 54, 1, 0, 0)
    case.free(42, 126)


def closing():
    """Six cells, one on each register of both windows."""
    def ready(what, code, own=3):
        case = Case('closes: %s' % what, [
            proto(3, 0, [], [op('Call', 0, 0, 1), op('Return', 0, 3)]), proto(own, 0, [], [*code, op('Return', 0, 1)], [(0, 0)])])
        case.clear()
        case.at((0, 1), (1, 0))
        case.entry(0, 1, 0)
        case.set('f', HELD + 1, 1)
        case.cells(2 + 3, 2 + 0, 2 + 5, 2 + 2, 2 + 4, 2 + 1)
        case.put(*[i(20 + r) for r in range(6)])
        return case

    for a, still in ((0, [1, 3, 5]), (1, [0, 1, 3, 5]), (2, [0, 1, 3, 4, 5]), (255, [0, 1, 2, 3, 4, 5])):
        case = ready('Jump from %d on' % a if a < 255 else 'Jump, none', [op('Jump', a, 1), RETURN])
        case.run(1, 70, 1, 1, 2)
        for cell, r in enumerate((3, 0, 5, 2, 4, 1)):
            if cell in still:
                case.opened(r, first=cell)
            else:
                case.closed(i(20 + r), first=cell)
        case.holds(*[i(20 + r) for r in range(6)])
        case.run(1, 70, 1, 0, 1)
        case.opened(0, first=1)
        case.closed(i(25), first=2)
        case.closed(i(23), first=0)
        case.closed(i(24), first=4)
        case.holds(i(23), i(21), i(22))
        case.run(1, 0, 1, 0, 1)
        case.closed(i(23), i(23), i(25), i(22), i(24), i(21))
    case = ready('what is closed is no longer the register', [
        op('Jump', 0, 0), op('LoadBool', 0, 1, 0), op('LoadNil', 1, 2), op('GetUpValue', 1, 0), op('SetUpValue', 0, 0), op('GetUpValue', 2, 0)])
    case.run(6, 70, 6, 1, 6)
    case.holds(TRUE, i(23), TRUE, first=3)
    case.closed(TRUE)
    case = ready('a Jump that goes nowhere else', [op('Jump', 1, -1)])
    for _ in range(3):
        case.run(1, 70, 1, 1, 0)
    case.closed(i(25), first=2)
    case.opened(3)
    case = Case('closes: nothing is open', [proto(2, 0, [], [op('Jump', 0, 0), op('Jump', 1, 0), op('Jump', 255, 0), RETURN])])
    case.start(0)
    case.run(4, 0, 4, 0, 3)
    case.free(0, 0)
    case = Case('closes: the last Return closes too', [proto(4, 0, [i(3)], [
        op('LoadConstant', 1, 0), op('Closure', 2, 1), op('Return', 1, 2)]), proto(1, 0, [], [RETURN], [(0, 3), (0, 1)])])
    case.start(0)
    case.run(2, 70, 2, 0, 2)
    case.opened(3, 1)
    case.run(1, 0, 1, 0, 2)
    case.closed(NIL, i(3))
    case.run(1, 0, 0, 0, 2)
    case = Case('closes: values are handed down into a register that a cell is open on', [
        proto(3, 0, [i(1)], [op('Closure', 0, 1), op('Closure', 1, 2), op('Call', 1, 0, 1), op('Call', 0, 0, 1), op('Return', 0, 2)]),
        proto(1, 0, [], [op('GetUpValue', 0, 0), op('Return', 0, 1)], [(0, 1)]),
        proto(1, 0, [i(9)], [op('LoadConstant', 0, 0), op('Return', 0, 1)])])
    case.start(0)
    case.run(5, 70, 5, 0, 3)
    case.holds(fn(0), i(9))
    case.run(9, 0, 4, 0, 4)
    case.holds(i(9), i(9))
    case = Case('closes: a callee sets the register of its own function, and returns all the same', [
        proto(2, 0, [], [op('Closure', 0, 1), op('Call', 0, 0, 1), op('Return', 0, 2)]),
        proto(2, 0, [i(4)], [op('LoadConstant', 0, 0), op('SetUpValue', 0, 0), op('GetUpValue', 1, 0), op('Return', 1, 1)], [(0, 0)])])
    case.start(0)
    case.run(4, 70, 4, 1, 2)
    case.holds(i(4))
    case.run(9, 0, 3, 0, 2)
    case.holds(i(4))
    case = Case('closes: recursion through an upvalue', [
        proto(3, 0, [i(6)], [op('Closure', 0, 1), op('Move', 1, 0), op('LoadConstant', 2, 0), op('Call', 1, 1, 1), op('Return', 1, 1)]),
        proto(4, 1, [i(1)], [
            op('Less', 1, 0, 0, flags=1), op('Jump', 255, 4), op('GetUpValue', 1, 0), op('Sub', 2, 0, 0, flags=2), op('Call', 1, 1, 1),
            op('Mul', 0, 0, 1), op('Return', 0, 1)], [(0, 0)])])
    case.start(0)
    assert case.run(1000)[0] == 0
    case.holds(fn(0), i(720))
    # Errors, 70 and 60 close nothing.
    for what, five, answer in (
            ('an error', op('Minus', 2, 1), (36, 1, 1, 0, 1)), ('a Call of no function', op('Call', 0, 0, 0), (50, 1, 1, 0)),
            ('a fault', op('Jump', 3, 0), (60, 0, 1, 0))):
        case = ready('%s closes nothing' % what, [five])
        case.put(NIL, NIL, first=3)
        case.run(5, *answer)
        case.opened(3, 0, 5, 2, 4, 1)
        case.run(5, *([60, 0, 1, 0] if answer[0] == 60 else [answer[0], 0, *answer[2:]]))


def equal_closures():
    case = Case('closures: equal where they are one entry', [
        proto(3, 0, [], [op('Eq', 1, 0, 1), RETURN, RETURN, op('Less', 1, 0, 1), RETURN, RETURN, op('LessEq', 1, 0, 1), RETURN, RETURN]),
        proto(1, 0, [], [RETURN]), proto(1, 0, [], [RETURN])])
    case.clear()
    for e, prototype in ((0, 1), (1, 1), (2, 2), (63, 1)):
        case.entry(e, prototype)
    for left in (0, 1, 2, 63):
        for right in (0, 1, 2, 63):
            case.put(fn(left), fn(right))
            case.at((0, 0))
            case.run(1, 70, 1, 0, 2 if left == right else 1)
            case.at((0, 3))
            case.run(1, 43, 1, 0, 3, 1)
            case.at((0, 6))
            case.run(1, 44, 1, 0, 6, 1)
    for e in (0, 1, 2, 63):
        for other in (NIL, FALSE, i(e), f(float(e))):
            case.at((0, 0))
            case.put(fn(e), other)
            case.run(1, 70, 1, 0, 1)
    case = Case('closures: a Call of each entry enters its prototype', [
        proto(2, 0, [], [op('Call', 0, 0, 0), RETURN]), proto(1, 0, [], [RETURN]), proto(2, 0, [], [RETURN], [(0, 0)])])
    case.clear()
    case.cells(1, first=3)
    for e, prototype, cells in ((0, 2, (3,)), (1, 1, ()), (2, 0, ()), (40, 1, ()), (63, 2, (3,))):
        case.entry(e, prototype, *cells)
        case.at((0, 0))
        case.put(fn(e), i(4))
        case.run(1, 70, 1, prototype, 0)
        assert case.machine.frames[HELD + 1] == e + 1


def unfit_closures():
    case = None

    def group(what):
        """A case for each group: what follows starts it again."""
        nonlocal case
        case = Case('closures: ' + what, CAPTURED)

    def nested():
        """Registers 0 to 8 are live; the entries are 0 to 2; cell 0 is closed, cells 1 to 4 are open on registers 0, 1, 4 and 6."""
        case.start(0)
        case.run(9, 70, 9, 2, 0)

    def causes(*changes):
        """The changes make it unfit, and nothing else does: undone, it goes on."""
        nested()
        old = [case.set(*change) for change in changes]
        case.stands(60, 0, 0, 0)
        case.run(7, 60, 0, 0, 0)
        for change in reversed(old):
            case.set(*change)
        case.run(7, 0, 7, 0, 6)

    def fits(*changes, entry=3):
        """It runs as it would without the changes, but for the entry that its Closure takes."""
        nested()
        for change in changes:
            case.set(*change)
        case.stands(70, 0, 2, 0)
        case.run(3, 70, 3, 2, 3)
        case.made(entry, 4)
        case.run(4, 0, 4, 0, 6)

    def in_entry(e, at=0):
        return 'f', entry_at(e) + at

    group('unfit: an entry names a prototype that is not there')
    for word in (6, 7, 33, 256, 2**32, 2**32 + 4, MOST):
        causes((*in_entry(0), word))
        causes((*in_entry(63), word))
    group('unfit: an entry has not as many cells as its prototype has descriptors')
    for e, count in ((0, 1), (1, 2), (2, 3)):
        for k in range(8):
            causes((*in_entry(e, 1 + k), 0 if k < count else 1))
    causes((*in_entry(2, 8), MOST))
    # entries that nothing reaches, of a prototype without descriptors and of one with two
    causes((*in_entry(5), 5), (*in_entry(5, 1), 1))
    causes((*in_entry(5), 5), (*in_entry(5, 8), 1))
    causes((*in_entry(63), 2))
    causes((*in_entry(63), 2), (*in_entry(63, 2), 1))
    # entry 0 is of a prototype that has more descriptors, and none
    causes((*in_entry(0), 2))
    causes((*in_entry(0), 5))
    # by the table its prototype has one more, and none
    causes(('t', 133 + 27, 2))
    causes(('t', 133 + 27, 0))
    group('unfit: an entry names a cell above 127')
    for word in (129, 130, 256, 2**32, 2**32 + 1, MOST):
        causes((*in_entry(0, 1), word))
        causes((*in_entry(2, 3), word))
    group('unfit: an entry names a free cell')
    for word in (6, 7, 128):
        causes((*in_entry(0, 1), word))
    causes((*in_entry(5), 4), (*in_entry(5, 1), 100))
    causes(('f', CELLS, 0))
    causes(('f', CELLS + 2, 0))
    group('unfit: a cell is open on a register that is not live')
    for r in (9, 10, 2047, 2048, 2307, 2**16, 2**32, 2**32 + 1, MOST - 2):
        causes(('f', CELLS + 1, 2 + r))
        causes(('f', CELLS + 127, 2 + r))
    causes(('f', 1, 1))
    causes(('f', 0, 0), ('f', 1, 1))
    group('unfit: two cells are open on one register')
    causes(('f', CELLS + 2, 2))
    causes(('f', CELLS + 1, 10), ('f', CELLS + 2, 10))
    causes(('f', CELLS + 127, 8))
    causes(('f', CELLS + 100, 10), ('f', CELLS + 101, 10))
    for what, (kind, word) in (
            ('kind 6', (6, 0)), ('kind 90', (90, 0)), ('kind 255', (255, 0)), ('boolean 2', (1, 2)), ('boolean 2^64 - 1', (1, MOST)), ('nil with word 1', (0, 1)),
            ('string 0, an integer', s(0)), ('string 2 of 2', s(2)), ('string 2^64 - 1', s(MOST)), ('function 3, a free entry', fn(3)),
            ('function 63, a free entry', fn(63)), ('function 64', fn(64)), ('function 90', fn(90)), ('function 2^32', fn(2**32)),
            ('function 2^64 - 1', fn(MOST))):
        group('unfit: a cell is closed over %s; one that is free or open does not matter' % what)
        causes(('r', VALUES, kind), ('v', VALUES, word))
        causes(('f', CELLS + 127, 1), ('r', VALUES + 127, kind), ('v', VALUES + 127, word))
        fits(('r', VALUES + 127, kind), ('v', VALUES + 127, word))
        fits(('r', VALUES + 1, kind), ('v', VALUES + 1, word))
    group('fit: a cell is closed over a value')
    for kind, word in (NIL, TRUE, i(SMALLEST), OTHER_NAN, s(1), fn(2)):
        fits(('r', VALUES, kind), ('v', VALUES, word))
        fits(('f', CELLS + 127, 1), ('r', VALUES + 127, kind), ('v', VALUES + 127, word))
    group('unfit: a register holds function 0, whose entry is free')
    causes((*in_entry(0), 0))
    group('unfit: the outermost activation has a closure')
    for word in (1, 2, 4, 64, 65, 2**32, MOST):
        causes(('f', HELD, word))
    for slot, who, others in ((HELD + 1, 'the second activation', (1, 3)), (HELD + 2, 'the innermost activation', (1, 2))):
        group('unfit: %s has no closure, one that is free or not there, or one of another prototype' % who)
        for word in (0, 4, 64, 65, 66, 256, 2**32, 2**32 + 2, MOST, *others):
            causes(('f', slot, word))
    group('unfit: an activation is of another prototype than its closure')
    causes(('f', 4, 0), ('f', 5, 6))
    group('unfit: the outermost is of a prototype with descriptors')
    causes(('f', 2, 1), ('f', 3, 3))
    causes(('t', 133, 1))
    group('unfit: failed, with an entry of no prototype, or an activation without a closure')
    causes(('f', 0, 30), (*in_entry(40), 6))
    causes(('f', 0, 53), ('f', HELD + 2, 0))
    group('fit: marks of a Closure')
    for mark in (53, 54):
        nested()
        case.set('f', 0, mark)
        case.stands(mark, 0, 2, 0)
        case.run(9, mark, 0, 2, 0)
    case = Case('closures: unfit: finished, with a cell closed over no value', [proto(1, 0, [], [RETURN])])
    case.start(0)
    case.run(1, 0, 1, 0, 0)
    for change in (('f', CELLS + 50, 1), ('r', VALUES + 50, 7)):
        case.set(*change)
    case.run(1, 60, 0, 0, 0)
    case.set('r', VALUES + 50, 0)
    case.run(1, 0, 0, 0, 0)
    case.set('f', HELD, 1)
    case.stands(60, 0, 0, 0)

    group('fit: entries that nothing reaches')
    fits((*in_entry(10), 5))
    fits((*in_entry(63), 2), (*in_entry(63, 1), 1), (*in_entry(63, 2), 5))
    fits((*in_entry(63), 2), (*in_entry(63, 1), 3), (*in_entry(63, 2), 3))
    group('fit: cells that no entry names')
    fits(('f', CELLS + 127, 2 + 8))
    case.closed(fn(3), first=127)
    fits(*[('f', CELLS + 20 + r, 2 + r) for r in (2, 3, 5, 7, 8)])
    fits(('f', CELLS + 64, 1), ('r', VALUES + 64, 1), ('v', VALUES + 64, 1))
    group('fit: gaps, so a higher entry is taken')
    fits((*in_entry(3), 5), entry=4)
    fits(*[(*in_entry(e), 5) for e in range(3, 63)], entry=63)
    group('53 at the last entry')
    nested()
    for e in range(3, 64):
        case.set(*in_entry(e), 5)
    case.run(7, 53, 3, 2, 2)
    group('fit: what free entries hold, and the closures of activations that are not live')
    fits(*[(*in_entry(e, k), MOST) for e in (4, 63) for k in (1, 8)])
    fits(('f', HELD + 3, 1), ('f', HELD + 4, MOST), ('f', HELD + 15, MOST))
    group('fit: a function register that is not the closure of the record, and one that holds none')
    fits(('v', 2, 0))
    fits(('r', 2, 0), ('v', 2, 0))
    group('fit: functions of free entries in dead registers')
    fits(('r', 9, 5), ('v', 9, 50), ('r', 2047, 5), ('v', 2047, MOST))
    group('fit: closures over cells of several windows, cells that move, another closure of the prototype')
    fits((*in_entry(1, 1), 5), (*in_entry(1, 2), 1))
    fits(('f', CELLS + 1, 2 + 8))
    fits((*in_entry(7), 3), *[(*in_entry(7, 1 + k), 1) for k in range(3)], ('f', HELD + 2, 8))


def faults_of_closures():
    """In an image that isn't accepted a run faults only at the instruction that breaks 16 itself."""
    child = proto(1, 0, [], [RETURN], [(0, 0), (0, 1)])
    for what, protos, at, steps in (
            ('a Closure whose descriptor is out of range', [
                proto(1, 0, [], [op('LoadNil', 0, 1), op('Closure', 0, 1), RETURN]), child], (0, 1), 1),
            ('a Closure of an upvalue where there is none', [
                proto(1, 0, [], [op('LoadNil', 0, 1), op('Closure', 0, 1), RETURN]), proto(1, 0, [], [RETURN], [(1, 0)])], (0, 1), 1),
            ('GetUpValue at the count', [
                proto(2, 0, [], [op('Closure', 0, 1), op('Call', 0, 0, 0), RETURN]),
                proto(1, 0, [], [op('GetUpValue', 0, 2), RETURN], [(0, 0), (0, 1)])], (1, 0), 2),
            ('SetUpValue at the count', [
                proto(2, 0, [], [op('Closure', 0, 1), op('Call', 0, 0, 0), RETURN]),
                proto(1, 0, [], [op('SetUpValue', 2, 0), RETURN], [(0, 0), (0, 1)])], (1, 0), 2)):
        case = Case('closures: fault: %s' % what, protos)
        case.start((16, *at))
        case.clear()
        case.at((0, 0))
        case.run(9, 60, steps, *at)
        case.run(9, 60, 0, *at)
        case.run(0, 70, 0, *at)
    case = Case('closures: no fault: an instruction that breaks 16 is not reached', [
        proto(1, 0, [], [op('Jump', 1), op('Closure', 0, 1), op('Return', 0, 1)]), child])
    case.start((16, 0, 1))
    case.clear()
    case.at((0, 0))
    case.run(9, 0, 2, 0, 2)
    case = Case('closures: fault: instruction 0 of prototype 0, which has descriptors', [
        proto(1, 0, [], [op('LoadNil', 0, 1), op('Call', 0, 0, 0), RETURN], [(0, 0)]),
        proto(1, 0, [], [op('Closure', 0, 0), op('Call', 0, 0, 0), RETURN])])
    case.start((16, 0, 0))
    case.clear()
    case.at((1, 0))
    case.run(9, 60, 2, 0, 0)
    case.run(9, 60, 0, 0, 0)
    # its other instructions are as good as any
    case.set('f', 5, 1)
    case.run(1, 50, 1, 0, 1)
    case.at((0, 0))
    case.run(0, 60, 0, 0, 0)
    case = Case('closures: unfit: after a Call at instruction 0 of prototype 0, which has descriptors', [
        proto(1, 0, [], [op('Call', 0, 0, 0), op('Call', 0, 0, 0), RETURN], [(0, 0)]), proto(1, 0, [], [op('Call', 0, 0, 0), RETURN])])
    case.clear()
    case.cells(1)
    case.at((1, 1), (0, 2), (1, 0))
    case.entry(0, 0, 0)
    case.set('f', HELD + 1, 1)
    case.run(0, 70, 0, 1, 0)
    case.set('f', 5, 1)
    case.run(0, 60, 0, 0, 0)
    for number, what, entries, cells in ((53, 'no entry is free', 64, 0), (54, 'no cell is free', 0, 128)):
        case = Case('closures: 60 before %d' % number, [
            proto(1, 0, [], [op('Closure', 0, 1), op('Closure', 0, 2), RETURN]), child, proto(1, 0, [], [RETURN], [(0, 0)])])
        case.clear()
        for e in range(entries):
            case.entry(e, 0)
        case.cells(*[1] * cells)
        case.at((0, 0))
        case.run(1, 60, 0, 0, 0)
        case.at((0, 1))
        case.run(1, number, 1, 0, 1)


def main():
    check = checking(__doc__)
    for group in (starts, binaries, unaries, comparisons, tests, loads, loops, figures, named, controls, marks, failed, calls, budgets, faults, unfit,
                  starts_with_closures, closures, captures, closing, equal_closures, unfit_closures, faults_of_closures):
        group()
    stdin = ''.join(LIST)
    if len(stdin) > MOST_BYTES:
        raise SystemExit('%d bytes; crates/states reads %d' % (len(stdin), MOST_BYTES))
    keep('states', stdin, ''.join(ANSWERS), check)
    print('%d cases, %d starts and runs' % (sum(part[0] == '#' for part in ANSWERS), RUNS[0]))


main()
