"""Random images that the checker accepts, the same each time.

    images()     each image's family and prototypes

    small        a few instructions, any operation on any operands that the checker lets pass
    tame         statements as a compiler makes them (loops, choices, calls), on operands on which the Rust and document 01 agree
    short        a few of those
    wild         the same on any operands, with calls of any function and writes to any register
    figures      operators of arithmetic and bits on strings that read as figures, and on some that don't

What runs long or raises an error at once is as good as any other image here; compare.py leaves out what runs too long."""
import os
import struct

from oracle.answers import DONE
from oracle.dice import Dice
from oracle.image import Prototype, payload
from oracle.rules import BINARY, COMPARISONS, OPERANDS, OPERATIONS, check, ends, instruction, next_places

# The operations that the Rust can be asked for: of upvalues nothing is here.
CARRIED = [name for name in OPERATIONS.values() if name not in ('GetUpValue', 'SetUpValue')]
from oracle.values import BOOLEAN, INTEGER, NIL, NUMBER, STRING

VALUES = os.path.join(os.path.dirname(os.path.realpath(__file__)), '..', 'vectors', 'values.txt')
MANY = {'small': 2000, 'short': 1000, 'tame': 1500, 'wild': 1500, 'figures': 1000}


# ---- constants

def constant(kind, word):
    return bytes([kind]) + payload(kind, word)


def integer(n):
    return constant(INTEGER, n % 2**64)


def number(x):
    return bytes([NUMBER]) + struct.pack('>d', x)


def string(data):
    return bytes([STRING]) + data


def edges():
    """The operands of the vectors, at which something changes."""
    with open(VALUES) as file:
        lines = [line.split() for line in file if not line.startswith('#')]
    return [constant(int(line[0]), int(line[1], 16)) for line in lines]


def of_kind(kind, constants):
    return [c for c in constants if c[0] == kind]


OTHERS = [constant(NIL, 0), constant(BOOLEAN, 0), constant(BOOLEAN, 1)]
PLAIN = {
    'i': [integer(n) for n in [*range(-3, 12), 63, 64, 100, 255, 256, -1000, 2**31, -2**31, 2**40]],
    'n': [number(x) for x in [0.0, -0.0, 0.5, -0.5, 1.0, -1.0, 1.5, -2.5, 3.0, 8.0, 0.1, 100.25, 1e10, 1e300, -1e-300]],
    's': [string(data) for data in [b'', b'a', b'ab', b'b', b'keep', b'release', b'\0', b'a\0', b'\xff', b'a' * 64]],
}
EDGES = {
    'i': PLAIN['i'] + of_kind(INTEGER, edges()),
    'n': PLAIN['n'] + of_kind(NUMBER, edges()),
    's': PLAIN['s'] + [string(data) for data in [b'0', b'1', b'10', b'-3', b'+7', b'0x10', b'1e2', b' 7', b'0.5', b'inf', b'9223372036854775808']],
}
# Texts of integers, of other numbers, and those that the Rust reads otherwise or that are no figures.
WHOLE = [b'1', b'7', b'10', b'-3', b'+12', b'0x10', b'0XfF', b'-0xA', b'007', b'3.0', b'1e3', b'-2.50e1', b'9223372036854775807',
         b'-9223372036854775808']
FRACTIONS = [b'0.5', b'2.5', b'-7.25', b'.1', b'+5.', b'1.5E+2', b'-0.0', b'0e99', b'1e-22', b'1e22', b'0.1e23', b'123456789012345e22',
             b'999999999999999e-22', b'10000000000000000000', b'-20000000000000000000', b'0.3', b'1e0022', b'3.141592653589']
PARTING = [b'', b'0', b'-', b'+0', b' 7', b'2.5\t', b'\n0x10 ', b'0x', b'-0X', b'0xffffffffffffffff', b'-0x8000000000000000', b'0x200000000000018',
           b'0x1p4', b'0x.8', b'1e23', b'1e-23', b'9223372036854775808', b'1234567890123456.5', b'inf', b'-nan', b'1e999', b'.', b'1e', b'1 2',
           b'seven', b'1\0']
# Counts of shifts and divisors on which the Rust is right.
SHIFTS = [integer(n) for n in (0, 1, 2, 7, 31, 63)]
DIVISORS = [integer(n) for n in (1, 2, 3, 7, 10, 1000)]
MASK = integer(0xFFFF)


# ---- one prototype

class Body:
    """A prototype that is being written. The roles of its first registers stay what they are: i an integer, n a number, s a string, a any value. Above
    them lie the controls of two nested loops and the registers of calls, whose role is a."""

    LOOPS, CALLS = 2, 5

    def __init__(self, dice, family, q, protos):
        self.dice, self.wild, self.short, self.q, self.protos = dice, family == 'wild', family == 'short', q, protos
        self.pools = EDGES if self.wild else PLAIN
        self.roles = ['i', 'n', 'a'] + [dice.pick('iinnsaa') for _ in range(dice.below(2 if self.short else 8))]
        self.loops = len(self.roles)
        self.calls = self.loops + 4 * self.LOOPS
        self.registers = self.calls + self.CALLS
        if dice.chance(12):
            self.registers = dice.pick([128, 200, 255])
        self.parameters = dice.below(4)
        self.variables = []
        self.constants, self.code = [], []

    def prototype(self):
        return Prototype(self.registers, self.parameters, self.constants, self.code)

    # -- constants and registers

    def index(self, c):
        if c not in self.constants:
            self.constants.append(c)
        return self.constants.index(c)

    def some(self, role):
        return self.dice.pick(OTHERS + self.pools['s'][:3] if role == 'a' else self.pools[role])

    def register(self, role):
        """One to read: of this role, by chance of any."""
        if self.dice.chance(50 if self.wild else 400):
            return self.dice.below(self.registers)
        found = [r for r, of in enumerate(self.roles) if of == role] + [r for r, of in self.variables if of == role]
        return self.dice.pick(found) if found else None

    def target(self, role):
        """One to write."""
        if self.wild and self.dice.chance(40):
            return self.dice.below(self.registers)
        return self.dice.pick([r for r, of in enumerate(self.roles) if of == role] or [self.roles.index('a')])

    def operand(self, role):
        """A register or a constant, and whether it is one."""
        r = self.register(role)
        if r is None or self.dice.chance(3):
            return self.index(self.some(role)), True
        return r, False

    # -- instructions

    def put(self, name, a=0, b=0, c=0, flags=0):
        self.code.append(instruction(name, a, b, c, flags))

    def combine(self, name, a, left, right):
        self.put(name, a, left[0], right[0], left[1] + 2 * right[1])

    def load(self, r, c):
        self.put('LoadConstant', r, *divmod(self.index(c), 256))

    def jump(self, name, a, at, to):
        """An instruction that leads from `at` to `to`."""
        self.code[at] = instruction(name, a, *divmod((to - at - 1) % 65536, 256))

    def later(self):
        """A place for a jump whose target isn't known yet."""
        self.put('Jump', 255)
        return len(self.code) - 1

    # -- statements

    def on_integers(self):
        dice = self.dice
        name = dice.pick(['Add', 'Sub', 'Mul', 'BitAnd', 'BitOr', 'BitXor', 'ShiftLeft', 'ShiftRight', 'IDiv', 'Mod', 'Minus', 'BitNot'])
        dest = self.target('i')
        if name in ('Minus', 'BitNot'):
            self.put(name, dest, self.register('i'))
        elif self.wild:
            self.combine(name, dest, self.operand(dice.pick('iiiin')), self.operand(dice.pick('iiiin')))
        elif name in ('ShiftLeft', 'ShiftRight'):
            self.combine(name, dest, self.operand('i'), (self.index(dice.pick(SHIFTS)), True))
        elif name in ('IDiv', 'Mod'):
            self.combine('BitAnd', dest, self.operand('i'), (self.index(MASK), True))
            self.combine(name, dest, (dest, False), (self.index(dice.pick(DIVISORS)), True))
        elif name in ('BitAnd', 'BitOr', 'BitXor') and dice.chance(5):
            self.combine(name, dest, self.operand('i'), (self.index(number(float(dice.below(64)))), True))
        else:
            self.combine(name, dest, self.operand('i'), self.operand('i'))

    def on_numbers(self):
        name = self.dice.pick(['Add', 'Sub', 'Mul', 'Div', 'IDiv', 'Mod', 'Minus'])
        dest = self.target('n')
        if name == 'Minus':
            self.put(name, dest, self.register('n'))
        else:
            left, right = self.dice.pick(['nn', 'in', 'ni', 'ii' if name == 'Div' else 'nn'])
            self.combine(name, dest, self.operand(left), self.operand(right))

    def on_others(self):
        dice, dest = self.dice, self.target('a')
        name = dice.pick(['Not', 'Move', 'LoadBool', 'LoadNil', 'Closure', 'LoadConstant'])
        if name in ('Not', 'Move'):
            self.put(name, dest, self.register(dice.pick('insa')) or 0)
        elif name == 'LoadBool':
            self.put(name, dest, dice.below(2), 1)
            self.put(name, dest, dice.below(2), 0)
        elif name == 'LoadNil':
            first = dice.below(self.CALLS)
            self.put(name, self.calls + first, dice.below(self.CALLS - first + 1))
        elif name == 'Closure':
            self.put(name, dest, dice.below(len(self.protos)))
        else:
            self.load(dest, self.some('a'))

    def move(self):
        role = self.dice.pick('ins')
        r = self.register(role)
        if r is not None and role in self.roles:
            self.put('Move', self.target(role), r)

    def condition(self):
        """An instruction that skips the next one or doesn't."""
        dice = self.dice
        name = dice.pick(['Eq', 'Less', 'LessEq', 'Test', 'TestSet'])
        if name == 'Test':
            self.put(name, self.register('a'), dice.below(2))
        elif name == 'TestSet':
            self.put(name, self.target('a'), self.register('a'), dice.below(2))
        else:
            pairs = ['ii', 'nn', 'in', 'ni', 'ss'] + (['ai', 'aa', 'sn'] if name == 'Eq' or self.wild else [])
            left, right = dice.pick(pairs)
            self.combine(name, dice.below(2), self.operand(left), self.operand(right))

    def choice(self, depth):
        self.condition()
        over = self.later()
        self.block(depth + 1)
        if self.dice.chance(2):
            end = self.later()
            self.jump('Jump', 255, over, len(self.code))
            self.block(depth + 1)
            over = end
        elif self.dice.chance(6):
            self.leave()
        self.jump('Jump', 255, over, len(self.code))

    def controls(self):
        """Start, limit and step, and the role of the variable."""
        dice = self.dice
        if self.wild and dice.chance(3):
            controls = [self.some(dice.pick('iiins')) for _ in range(3)]
            return controls, 'i'
        start, turns, step = dice.below(20) - 10, dice.below(6) - 1, dice.pick([1, 1, 2, -1, 3])
        limit = start + turns * step
        return dice.pick([
            ([integer(start), integer(limit), integer(step)], 'i'),
            ([number(start / 2), number(limit / 2), number(step / 2)], 'n'),
            ([number(start), integer(limit), integer(step)], 'n'),
        ])

    def loop(self, depth):
        base = self.loops + 4 * len(self.variables)
        controls, role = self.controls()
        for i, c in enumerate(controls):
            self.load(base + i, c)
        prep = self.later()
        self.variables.append((base + 3, role))
        self.block(depth + 1)
        self.variables.pop()
        self.jump('NumericForPrep', base, prep, len(self.code))
        self.later()
        self.jump('NumericForLoop', base, len(self.code) - 1, prep + 1)

    def function(self):
        """Puts a function where it is called: one that is written already, by chance any one or any value. The roles of its parameters, if known."""
        dice = self.dice
        if self.wild and dice.chance(16):
            self.put('Move', self.calls, self.register('a'))
            return []
        written = [q for q, body in enumerate(self.protos) if body]
        q = dice.below(len(self.protos)) if not written or self.wild and dice.chance(8) else dice.pick(written)
        self.put('Closure', self.calls, q)
        return self.protos[q].roles[:self.protos[q].parameters] if self.protos[q] else []

    def may_call(self):
        """Of the image's last function, which is written first, only a wild one calls, and then itself or one that calls it."""
        return any(self.protos) or self.wild and self.dice.chance(4)

    def call(self):
        dice, f = self.dice, self.calls
        roles = self.function()
        given = dice.below(4) if dice.chance(10 if self.wild else 60) else len(roles)
        for i in range(given):
            role = roles[i] if i < len(roles) else 'a'
            r = self.register(role)
            if r is None:
                self.load(f + 1 + i, self.some(role))
            else:
                self.put('Move', f + 1 + i, r)
        asked = dice.below(self.CALLS)
        self.put('Call', f, given, asked)
        if asked:
            self.put('Move', self.target('a'), f + dice.below(asked))

    def leave(self):
        start = self.dice.below(len(self.roles) + 1)
        self.put('Return', start, self.dice.below(min(self.registers - start, 8) + 1))

    def statement(self, depth):
        kind = self.dice.pick(['integers', 'integers', 'numbers', 'numbers', 'others', 'move', 'choice', 'choice', 'loop', 'call', 'call'])
        if kind == 'loop' and len(self.variables) < self.LOOPS and depth < 2:
            self.loop(depth)
        elif kind == 'choice' and depth < 3:
            self.choice(depth)
        elif kind == 'call' and self.may_call():
            self.call()
        elif kind == 'move':
            self.move()
        elif kind == 'others':
            self.on_others()
        elif kind == 'numbers':
            self.on_numbers()
        else:
            self.on_integers()

    def block(self, depth):
        for _ in range(1 + self.dice.below(2 if self.short else 3 if depth else 6)):
            self.statement(depth)

    def write(self):
        for r, role in enumerate(self.roles):
            if r >= self.parameters or self.q == 0:
                self.load(r, self.some(role))
        self.block(0)
        self.put('Return', 0, len(self.roles))
        return self


def of_statements(dice, family):
    """The last prototype is written first, so that those before it know what it takes."""
    protos = [None] * (1 + dice.below(2 if family == 'short' else 4))
    for q in reversed(range(len(protos))):
        protos[q] = Body(dice, family, q, protos).write()
    return [body.prototype() for body in protos]


# ---- any instructions

def operands(dice, name, p, n, registers, constants, protos):
    """Three bytes and the flags of an operation at instruction p of n; the checker may refuse them."""
    def offset():
        to = dice.below(n) if name == 'NumericForLoop' or dice.chance(4) else p + 1 + dice.below(n - p)
        return divmod((to - p - 1) % 65536, 256)

    flags = dice.below(4) if 's' in OPERANDS[name] and dice.chance(2) else 0
    a, b, c = dice.below(registers), dice.below(registers), dice.below(registers)
    if name == 'LoadConstant':
        b, c = 0, dice.below(constants)
    elif name in ('Jump', 'NumericForPrep', 'NumericForLoop'):
        b, c = offset()
    elif name == 'Closure':
        b, c = dice.below(protos), 0
    elif name == 'LoadBool':
        b, c = dice.below(2), dice.below(2)
    elif name == 'Test':
        b = dice.below(2)
    elif name == 'TestSet':
        c = dice.below(2)
    elif name == 'Return' and not dice.chance(4):
        a, b = 0, registers
    elif flags:
        b, c = dice.below(constants) if flags & 1 else b, dice.below(constants) if flags & 2 else c
    if name == 'Jump':
        a = 255
    elif name in COMPARISONS:
        a = dice.below(2)
    if OPERANDS[name].endswith('-'):
        c = 0
    return a, b, c, flags


def any_instruction(dice, p, n, registers, constants, protos):
    """One that the checker lets pass, at instruction p of n. The last one is a Return."""
    while True:
        name = 'Return' if p == n - 1 else dice.pick([name for name in CARRIED if name != 'Return'] + ['LoadConstant', 'Closure'])
        a, b, c, flags = operands(dice, name, p, n, registers, constants, protos)
        inside = all(end <= registers for end in ends(name, a, b, c))
        if inside and all(0 <= place < n for place in next_places(name, p, b, c)):
            return instruction(name, a, b, c, flags)


def of_any(dice):
    protos, pool = 1 + dice.below(2), EDGES if dice.chance(3) else PLAIN
    pools = [pool['i'], pool['n']] if dice.chance(2) else [pool['i'], pool['i'], pool['n'], pool['s'], OTHERS]
    found = []
    for _ in range(protos):
        registers, n = 1 + dice.below(6), 2 + dice.below(9)
        constants = [dice.pick(dice.pick(pools)) for _ in range(1 + dice.below(3))]
        code = [any_instruction(dice, p, n, registers, len(constants), protos) for p in range(n)]
        # What is loaded first keeps most runs from ending at their first operator.
        for r in range(min(registers, n - 2, 1 + dice.below(4))):
            code[r] = instruction('LoadConstant', r, 0, dice.below(len(constants)))
        found.append(Prototype(registers, dice.below(min(registers, 3) + 1), constants, code))
    return found


# ---- strings that read as figures

def of_figures(dice):
    """One prototype: operands are loaded, then operators work on them and on constants; the results stand behind them."""
    operands, results = 2 + dice.below(3), 1 + dice.below(4)
    texts = [WHOLE, FRACTIONS, PARTING][min(dice.below(5), 2)] if dice.chance(2) else WHOLE + FRACTIONS
    constants = [dice.pick([string(dice.pick(texts)), string(dice.pick(texts)), dice.pick(PLAIN['i']), dice.pick(PLAIN['n'])])
                 for _ in range(operands)]
    code = [instruction('LoadConstant', r, 0, r) for r in range(operands)]
    for r in range(operands, operands + results):
        name = dice.pick([*BINARY, 'Div', 'Minus', 'BitNot'])
        if name in BINARY:
            code.append(instruction(name, r, dice.below(operands), dice.below(operands), dice.below(4)))
        else:
            code.append(instruction(name, r, dice.below(operands)))
    code.append(instruction('Return', 0, operands + results))
    return [Prototype(operands + results, 0, constants, code)]


def made(family, dice):
    return of_any(dice) if family == 'small' else of_figures(dice) if family == 'figures' else of_statements(dice, family)


def images():
    for place, (family, count) in enumerate(MANY.items()):
        for turn in range(count):
            protos = made(family, Dice(1000000 * (place + 1) + turn))
            assert check(protos)[0] == DONE, (family, turn, check(protos))
            yield family, protos
