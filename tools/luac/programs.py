"""The Lua programs of crates/runs: CASES, made by family from a generator of numbers of our own.

Left out, since the documents say otherwise than Lua 5.3 (docs/DIFFERENCES.md): Mod of numbers whose remainder times divisor rounds to zero under
strictly opposite signs; arithmetic in which a string reads as an integer and no operand is a number, of which Lua 5.3 makes floats; strings outside
the set that Lua converts; two functions of one place that hold the same variables, or none, compared; loops with a string, a NaN or a step of
zero; loops of numbers with an integer limit that a number doesn't hold. An error's
line has just one instruction that could raise it."""
import math
import re

from closures import program
from oracle.dice import Dice


class Case:
    """paper: number and line of a Call or of a function's end that the documents' limits refuse and Lua doesn't."""

    def __init__(self, name, source, paper=None):
        self.name, self.source, self.paper = name, source, paper


CASES = []


def case(name, lines, paper=None):
    source = lines if isinstance(lines, str) else '\n'.join(lines)
    CASES.append(Case(name, source.strip('\n') + '\n', paper))


# ---- literals

LARGEST = 2**63 - 1
SMALLEST = -2**63
INTEGERS = [0, 1, -1, 2, -2, 3, 5, 7, -7, 10, -10, 13, 31, 62, 63, 64, 65, -63, -64, 100, 255, 256, -1000, 1000003, 2**31, -2**31, 2**32 - 1, 2**32,
            2**53 - 1, 2**53, 2**53 + 1, -2**53 - 1, 2**62, LARGEST, LARGEST - 1, SMALLEST, SMALLEST + 1, 0x5555555555555555, 0x0123456789ABCDEF]
NUMBERS = [0.0, -0.0, 0.5, -0.5, 1.0, -1.0, 1.5, -2.5, 3.0, 0.1, 0.2, -0.7, 1 / 3, 7.25, -7.25, 1e10, 123456.789, 2.0**31, 2.0**53, -2.0**53, 2.0**62,
           2.0**63, -2.0**63, 2.0**63 - 1024, 1e100, -1e100, 1.7976931348623157e308, 2.2250738585072014e-308, 5e-324, -5e-324, 1e-310, math.inf,
           -math.inf]


def literal(v):
    if v is None:
        return 'nil'
    if isinstance(v, bool):
        return 'true' if v else 'false'
    if isinstance(v, str):
        return v
    if isinstance(v, bytes):
        return '"' + ''.join(chr(b) if chr(b).isalnum() and b < 128 else '\\%03d' % b for b in v) + '"'
    if isinstance(v, int):
        return '0x8000000000000000' if v == SMALLEST else str(v)
    if math.isinf(v):
        return '1e999' if v > 0 else '-1e999'
    return repr(v)


def kind(v):
    return 'i' if isinstance(v, int) else 'n'


def is_whole(v):
    return isinstance(v, int) or not math.isinf(v) and v == math.floor(v) and -2**63 <= v < 2**63


# ---- arithmetic

def arithmetic(count):
    for turn in range(count):
        dice = Dice(1000 + turn)
        pool = [INTEGERS, NUMBERS, INTEGERS + NUMBERS][turn % 3]
        lines, known = [], []
        for i in range(2 + dice.below(3)):
            v = dice.pick(pool)
            lines.append('local v%d = %s' % (i, literal(v)))
            known.append(('v%d' % i, kind(v), is_whole(v)))
        made = []

        def operand():
            if dice.chance(4):
                v = dice.pick(pool)
                return literal(v), kind(v), is_whole(v)
            return dice.pick(known)

        for i in range(4 + dice.below(5)):
            left, right = operand(), operand()
            integers = left[1] == right[1] == 'i'
            operators = ['+', '-', '*', '//', '/', 'minus', '+', '-', '*']
            # `%` of numbers has its own programs, which know what they divide: see `vanishes`.
            if integers or dice.chance(12):
                operators += ['%'] * (2 if integers else 0) + ['&', '|', '~', '<<', '>>', 'not']
            elif left[2] and right[2]:
                operators += ['&', '|', '~', '<<', '>>']
            operator = dice.pick(operators)
            name = 't%d' % i
            if operator == 'minus':
                source = dice.pick(known)
                lines.append('local %s = -%s' % (name, source[0]))
                known.append((name, source[1], source[2]))
            elif operator == 'not':
                source = dice.pick([k for k in known if k[1] == 'i'] or known)
                lines.append('local %s = ~%s' % (name, source[0]))
                known.append((name, 'i', True))
            else:
                if operator in ('//', '%') and integers and right[0] not in ('v0', 't0') and dice.chance(3):
                    right = literal(dice.pick([2, -2, 3, -3, 7, -7, 10, -1, 1000003, LARGEST, SMALLEST])), 'i', True
                lines.append('local %s = %s %s %s' % (name, left[0], operator, right[0]))
                whole = operator in ('&', '|', '~', '<<', '>>', '%') or integers and operator != '/'
                known.append((name, 'i' if whole else 'n', whole))
            made.append(name)
        lines.append('return ' + ', '.join(made[-8:]))
        case('arithmetic %d' % turn, lines)


def worked():
    case('worked examples W1 to W7 and W10 to W12', '''
local n, smallest, largest = -7, 0x8000000000000000, 9223372036854775807
local w1 = n // 2
local w2 = -n % -2
local w3 = smallest // -1
local w4 = smallest % -1
local w5 = (largest - 1) % largest
local w6 = largest + 1
local w7 = 9007199254740993
w7 = w7 + 0.0
local w10 = 2
w10 = w10 << -1
local w11 = -1
w11 = w11 >> 1
local w12 = 1
w12 = w12 << 64
return w1, w2, w3, w4, w5, w6, w7, w10, w11, w12''')
    case('worked example W8', 'local a, b = 9007199254740993, 9007199254740992.0\nreturn a == b, a > b, b < a, a <= b')
    case('worked example W9', 'local a = 9223372036854775808.0\nlocal b = a | 0\nreturn b')
    case('worked example W13', 'local n = 0\nfor i = 1, 3 do n = n * 10 + i end\nreturn n')


def vanishes(a, b):
    """Whether Lua 5.3 has another remainder: it adds the divisor where remainder times divisor is below zero, and here the product rounds to zero."""
    if b == 0:
        return False
    r = math.fmod(a, b)
    return (r < 0 < b or b < 0 < r) and r * b == 0


def modulo(count):
    for turn in range(count):
        dice = Dice(2000 + turn)
        lines, names = [], []
        while len(names) < 6:
            a, b = ((dice.below(4001) - 2000) / 8 for _ in range(2))
            if dice.chance(6):
                a = dice.pick([1e15, -1e15, 1e300, -123456789.0, 5e-324, -1e-20])
            elif dice.chance(4):
                a = b * (dice.below(9) - 4)
            if dice.chance(6):
                b = dice.pick([math.inf, -math.inf, 0.1, -1e-310, 1.7e308])
            if vanishes(a, b):
                continue
            i = len(names)
            if dice.chance(3) and is_whole(b):
                b = int(b)
            # By a variable, or by a constant.
            if turn % 2 == 0:
                lines += ['local a%d, b%d = %s, %s' % (i, i, literal(a), literal(b)), 'local r%d = a%d %% b%d' % (i, i, i)]
            else:
                lines += ['local a%d = %s' % (i, literal(a)), 'local r%d = a%d %% %s' % (i, i, literal(b))]
            names.append('r%d' % i)
        case('modulo of numbers %d' % turn, lines + ['return ' + ', '.join(names)])
    case('modulo of numbers: kept for ever', '''
local age, ever = 1.0, 1e999
return age % ever, -age % ever, age % -ever, -age % -ever, 0 % ever, 7 % ever, ever % age''')
    case('modulo of numbers: zeros, and sums that round', '''
local four, two, small, one, large = 4.0, 2.0, 1e-20, 1.0, 1e308
return -four % two, four % -two, small % one, -small % one, large % 1.7e308, -large % 1.7e308''')
    # luac works these out itself, but for the two that give a zero.
    case('modulo of numbers: literals', '''
return 1.0 % 1e999, -1.0 % 1e999, -4.0 % 2.0, 4.0 % -2.0, -1e-20 % 1.0, 1e308 % 1.7e308''')
    case('modulo and division by the number zero', '''
local z, m, one, inf = 0.0, 1, 5, 1e999
m = -z
local a = one % z
local b = 5.0 % z
local c = inf % 2
local d = one // z
local e = one // m
local f = z // z
local g = one / 0
local h = -one / 0
return a, b, c, d, e, f, g, h''')


# ---- order

MIXED = INTEGERS + NUMBERS + [2.0**53 + 2, 2.0**62 + 1024, 2**62 + 1, -2**62 - 1]
ORDER = ['<', '<=', '>', '>=', '==', '~=']


def comparisons(count):
    for turn in range(count):
        dice = Dice(3000 + turn)
        values = [dice.pick(MIXED) for _ in range(4)]
        if dice.chance(2):
            near = dice.pick([v for v in MIXED if not isinstance(v, int) and not math.isinf(v) and abs(v) > 2**52 and abs(v) < 2**63])
            values[:2] = [near, int(near) + dice.below(3) - 1]
        lines = ['local v%d = %s' % (i, literal(v)) for i, v in enumerate(values)]
        known = ['v0', 'v1', 'v2', 'v3']
        if dice.chance(3):
            lines += ['local nan = v0 - v0', 'if nan == nan then nan = nan / nan end']
            known.append('nan')
        names = []
        for i in range(8):
            left, right = dice.pick(known), dice.pick(known)
            if dice.chance(4):
                left = literal(dice.pick(MIXED))
            elif dice.chance(4):
                right = literal(dice.pick(MIXED))
            lines.append('local c%d = %s %s %s' % (i, left, dice.pick(ORDER), right))
            names.append('c%d' % i)
        case('order of numbers %d' % turn, lines + ['return ' + ', '.join(names)])
    values = ['nil', 'false', 'true', '0', '0.0', '""', '"0"', '1', 'f', 'g']
    for turn, left in enumerate(values):
        lines = ['local f = function() return 1 end', 'local g = function() return 1 end', 'local v = ' + left]
        lines += ['local c%d = v == %s' % (i, right) for i, right in enumerate(values)]
        case('equality with ' + left.replace('"', "'"), lines + ['return ' + ', '.join('c%d' % i for i in range(len(values)))])
    # of two functions of one place only those that hold different variables: Lua 5.3 may take others for one
    case('functions are equal where they are one', '''
local make = function(x) local f = function() x = x + 1 return x end return f end
local a = make(1)
local b = make(1)
local c = function() return 1 end
local d = a
return a == b, a == c, make == make, a ~= b, not (a == c), a == d, d ~= b''')


# ---- truth

def logic(dice, names, depth):
    if depth == 0 or dice.chance(5):
        if dice.chance(4):
            return literal(dice.pick([None, True, False, 0, 1, 0.0, b'', b'x', b'long', -3]))
        return dice.pick(names)
    form = dice.below(6)
    if form < 2:
        return '(%s and %s)' % (logic(dice, names, depth - 1), logic(dice, names, depth - 1))
    if form < 4:
        return '(%s or %s)' % (logic(dice, names, depth - 1), logic(dice, names, depth - 1))
    if form < 5:
        return '(not %s)' % logic(dice, names, depth - 1)
    return '(%s %s %s)' % (logic(dice, names, depth - 1), dice.pick(['==', '~=']), logic(dice, names, depth - 1))


def truths(count):
    for turn in range(count):
        dice = Dice(4000 + turn)
        names, lines = ['a', 'b', 'c', 'd'], []
        for name in names:
            lines.append('local %s = %s' % (name, literal(dice.pick([None, None, True, False, False, 0, 7, -0.5, b'', b'text']))))
        for i in range(4):
            lines.append('local e%d = %s' % (i, logic(dice, names, 2 + i % 2)))
        lines += ['local w = 0']
        for i in range(3):
            lines += ['if %s then w = w * 2 + 1 else w = w * 2 end' % logic(dice, names, 2)]
        case('truth %d' % turn, lines + ['return e0, e1, e2, e3, w'])
    case('set by and, or', '''
local a, b, c = false, 5, nil
a = a or b
b = a and c
c = c or a
local d = a and b or c
local e = not a
local f = not b
return a, b, c, d, e, f''')
    for value in ('nil', 'false', 'true', '0', '"text"'):
        case('set only where it does not skip: %s' % value.replace('"', "'"), '''
local a, x, y, z, w = %s, 5, 6, 7, false
x = a and x + 1
y = a or y * 2
z = not a and z - 1
w = a and w == false or x
local v = 8
v = a and (v > 7 and v - 3) or v + 100
return x, y, z, w, v''' % value)


# ---- flow: whiles, repeats, ifs, gotos

def flow(count):
    for turn in range(count):
        dice = Dice(5000 + turn)
        fresh = [0]

        def term():
            return dice.pick(['x', 'y', 'z', 'x', 'y', 'z', str(dice.below(9)), str(-dice.below(5))])

        def expression():
            a, b = term(), term()
            form = dice.below(5)
            if form == 0:
                return '%s %s %d' % (a, dice.pick(['//', '%']), dice.pick([2, 3, -3, 5, 7, -10]))
            if form == 1:
                return '(%s %s %s) %s %s' % (a, dice.pick('+-*'), b, dice.pick(['&', '|', '~']), term())
            return '%s %s %s' % (a, dice.pick('+-*'), b)

        def condition():
            test = '%s %s %s' % (term(), dice.pick(ORDER), term())
            if dice.chance(4):
                return 'not (%s)' % test
            if dice.chance(3):
                return '%s %s %s %s %s' % (test, dice.pick(['and', 'or']), term(), dice.pick(ORDER), term())
            return test

        def block(depth, indent):
            return [line for _ in range(1 + dice.below(3)) for line in statement(depth, indent)]

        def statement(depth, indent):
            form = dice.below(10) if depth else 0
            if form < 4:
                return ['%s%s = %s' % (indent, dice.pick('xyz'), expression())]
            inner = indent + '  '
            if form < 6:
                out = ['%sif %s then' % (indent, condition())] + block(depth - 1, inner)
                if dice.chance(3):
                    out += ['%selseif %s then' % (indent, condition())] + block(depth - 1, inner)
                if not dice.chance(3):
                    out += [indent + 'else'] + block(depth - 1, inner)
                return out + [indent + 'end']
            fresh[0] += 1
            n, label = 'n%d' % fresh[0], 'next%d' % fresh[0]
            stop = ['%sif %s then break end' % (inner, condition())] if dice.chance(2) else []
            if form == 6:
                return ([indent + 'local %s = 0' % n, '%swhile %s < %d do' % (indent, n, 2 + dice.below(6)), '%s%s = %s + 1' % (inner, n, n)]
                        + block(depth - 1, inner) + stop + [indent + 'end'])
            if form == 7:
                return ([indent + 'local %s = 0' % n, indent + 'repeat', '%s%s = %s + 1' % (inner, n, n)] + block(depth - 1, inner)
                        + ['%suntil %s >= %d or %s' % (indent, n, 2 + dice.below(6), condition())])
            if form == 8:
                go = ['%sif %s then goto %s end' % (inner, condition(), label)]
                return (['%sfor %s = %d, %d do' % (indent, n, dice.below(4), 2 + dice.below(6))] + go + block(depth - 1, inner)
                        + ['%s%s = %s + %s' % (inner, *[dice.pick('xyz')] * 2, n), '%s::%s::' % (inner, label), indent + 'end'])
            return (['%sfor %s = %d, %d, -%d do' % (indent, n, 3 + dice.below(6), dice.below(3), 1 + dice.below(2))] + block(depth - 1, inner) + stop
                    + ['%s%s = %s ~ %s' % (inner, *[dice.pick('xyz')] * 2, n), indent + 'end'])

        lines = ['local x, y, z = %d, %d, %d' % (dice.below(20), -dice.below(20), dice.below(5))]
        for _ in range(3):
            lines += statement(3, '')
        case('flow %d' % turn, lines + ['return x, y, z'])


# ---- loops

def loop(name, controls, most=12, more=()):
    """For each of the controls: how often the loop turns, the sum, the last index; each loop is left after `most` turns."""
    lines, names = [], []
    for i, (first, limit, step) in enumerate(controls):
        header = 'for i = %s, %s%s do' % (literal(first), literal(limit), '' if step is None else ', ' + literal(step))
        lines += ['local n%d, s%d, l%d = 0, 0, nil' % (i, i, i), header, '  n%d = n%d + 1' % (i, i), '  s%d = s%d + i' % (i, i), '  l%d = i' % i,
                  '  if n%d >= %d then break end' % (i, most), 'end']
        names += ['n%d' % i, 's%d' % i, 'l%d' % i]
    case(name, lines + list(more) + ['return ' + ', '.join(names)])


def suits(first, limit, step):
    """Whether Lua's loop does what document 01 says: see the head."""
    step = 1 if step is None else step
    if step == 0:
        return False
    if isinstance(first, float) or isinstance(step, float):
        return isinstance(limit, float) or math.isinf(limit) or int(float(limit)) == limit
    return True


def loops(count):
    loop('loop: integers up', [(1, 10, None), (0, 0, None), (5, 4, None), (-3, 3, 2)])
    loop('loop: integers down', [(10, 1, -1), (10, 1, -3), (0, 0, -1), (4, 5, -1), (3, -3, -2)])
    loop('loop: negative bounds', [(-10, -1, None), (-1, -10, -4), (-5, -5, None), (-4, -5, None)])
    loop('loop: fractional limit of integers', [(1, 3.5, None), (1, 3.0, None), (1, 0.5, None), (3, 0.5, -1), (3, 1.0, -1)])
    loop('loop: fractional step', [(1, 3, 0.5), (0, 1, 0.1), (1, 0, -0.25), (0, 1, 0.3)])
    loop('loop: fractional start', [(0.5, 3, None), (0.5, 3.5, None), (2.5, 0, -1), (1.0, 3, 1)])
    loop('loop: all fractional', [(0.1, 0.75, 0.2), (-0.5, 0.5, 0.25), (0.75, -0.75, -0.5)])
    loop('loop: to infinity and left', [(1, math.inf, None), (1.5, math.inf, None), (1, -math.inf, -1), (1.0, -math.inf, -2.5)], most=5)
    loop('loop: away from infinity', [(1, -math.inf, None), (1, math.inf, -1), (1.5, -math.inf, None), (math.inf, 1, None), (-math.inf, 1, -1)])
    loop('loop: limit 2^63 as a number', [(LARGEST - 2, 2.0**63, None), (LARGEST - 2, 2.0**63, -1), (SMALLEST + 2, -2.0**63, -1), (1, -1e300, None)],
         most=6)
    loop('loop: wraps at the largest', [(LARGEST - 2, LARGEST, None), (LARGEST, LARGEST, None), (LARGEST - 1, LARGEST, 2)], most=6)
    loop('loop: wraps at the smallest', [(SMALLEST + 2, SMALLEST, -1), (SMALLEST, SMALLEST, -1), (SMALLEST + 1, SMALLEST, -2)], most=6)
    loop('loop: just before the wrap', [(LARGEST - 3, LARGEST - 1, None), (SMALLEST + 3, SMALLEST + 1, -1), (LARGEST - 9, LARGEST - 3, 3)])
    loop('loop: start - step wraps', [(SMALLEST, SMALLEST + 2, None), (LARGEST, LARGEST - 2, -1), (1, 10, LARGEST), (-1, -10, SMALLEST), (0, 5, LARGEST)],
         most=6)
    loop('loop: the largest step', [(SMALLEST, LARGEST, LARGEST), (LARGEST, SMALLEST, SMALLEST), (0, LARGEST, LARGEST)], most=6)
    loop('loop: numbers that stand still', [(2.0**53, 2.0**53 + 4, 1), (1e300, math.inf, 1)], most=6)
    loop('loop: large numbers', [(2.0**53 - 2, 2.0**53, None), (2.0**62, 2.0**63, 2.0**61), (-2.0**63, -2.0**62, 2**61)])
    loop('loop: the smallest numbers', [(0.0, 5e-323, 5e-324), (-5e-324, 5e-324, 5e-324), (-0.0, 0.0, 1)])
    starts = [1, 0, -1, 3, 10, LARGEST - 2, SMALLEST + 2, 0.5, -2.5, 1.0, 2.0**53, LARGEST, SMALLEST]
    limits = [3, 0, -4, 20, 2.5, -3.25, LARGEST, SMALLEST, 2.0**53, math.inf, -math.inf, 2.0**63, LARGEST - 1]
    steps = [None, 1, -1, 2, -3, 0.5, -0.75, LARGEST, SMALLEST, 2.0**52, 7]
    for turn in range(count):
        dice = Dice(6000 + turn)
        controls = []
        while len(controls) < 4:
            one = dice.pick(starts), dice.pick(limits), dice.pick(steps)
            if suits(*one):
                controls.append(one)
        loop('loop: mixed %d' % turn, controls, most=5)
    for turn in range(8):
        dice = Dice(6500 + turn)
        lines = ['local s, n = %d, 0' % dice.below(50)]
        lines.append('for i = %d, %d, %d do' % (dice.below(3), 4 + dice.below(4), 1 + dice.below(2)))
        lines.append('  for j = i, %s, %s do' % dice.pick([('0', '-1'), ('i + 3', '1'), ('i * 2', '2'), ('-i', '-2')]))
        test = dice.pick(['j > 6', 's < -999', 'n % 5 == 0 and j ~= i', 'i == j + 2'])
        lines += ['    n = n + 1', '    if %s then break end' % test, '    s = s * 3 + i - j']
        lines += ['    for k = %s, %s do s = s ~ (k << n) end' % dice.pick([('j', 'i'), ('1', 'j'), ('i', 'i + 1')]), '  end', '  s = s + n', 'end']
        case('loop: nested %d' % turn, lines + ['return s, n'])
    case('loop: the body changes index, limit and step', '''
local limit, step, n, s = 6, 2, 0, 0
for i = 1, limit, step do
  n = n + 1
  s = s * 10 + i
  limit = 100
  step = -5
  i = 77
  s = s + i
end
return n, s, limit, step''')
    case('loop: the outer variable is kept', 'local i = "outer"\nfor i = 1, 3 do local j = i end\nreturn i')
    case('loop: a thousand turns', 'local s = 0\nfor i = 1, 1000 do s = s + i * i end\nreturn s')
    case('loop: thirty thousand turns', 'local s, t = 0, 1.0\nfor i = 1, 30000 do\n  s = s + i\n  t = t * 1.0001\nend\nreturn s, t')


# ---- calls

def calls(count):
    for turn in range(count):
        dice = Dice(7000 + turn)
        lines, functions = [], []
        for i in range(1 + dice.below(3)):
            parameters = ['p%d' % k for k in range(dice.below(4))]
            body = ['local r = %d' % dice.below(10)]
            for name in parameters:
                body.append('if %s then r = r * 3 + %s else r = r - 1 end' % (name, name))
            results = [dice.pick(parameters + ['r', 'r', 'nil', 'true', '"s"']) for _ in range(dice.below(4))]
            if dice.chance(2):
                body.append('if r > %d then return %s end' % (dice.below(20), ', '.join(results[::-1])))
            body.append('return ' + ', '.join(results))
            lines += ['local f%d = function(%s)' % (i, ', '.join(parameters))] + ['  ' + line for line in body] + ['end']
            functions.append('f%d' % i)
        names = []
        for i in range(3 + dice.below(3)):
            wanted = ['r%d_%d' % (i, k) for k in range(dice.below(4))]
            arguments = ', '.join(dice.pick(['1', '2', '-5', 'nil', 'false', '40']) for _ in range(dice.below(5)))
            call = '%s(%s)' % (dice.pick(functions), arguments)
            lines.append('local %s = %s' % (', '.join(wanted), call) if wanted else call)
            names += wanted
        case('calls %d' % turn, lines + ['return ' + ', '.join(names)])
    case('call: a function handed on', '''
local twice = function(f, x) local a = f(x) local b = f(a) return b end
local more = function(x) return x + 1 end
local square = function(x) return x * x end
local a = twice(more, 5)
local b = twice(square, 3)
local c = twice(more, 0.5)
return a, b, c''')
    case('call: a function handed back', '''
local choose = function(which)
  if which == 1 then
    local f = function(x) return x + 100 end
    return f
  end
  local g = function(x) return x * 100 end
  return g
end
local f = choose(1)
local g = choose(2)
local a = f(7)
local b = g(7)
return a, b, f == g, f == choose, f ~= f''')
    case('call: registers above are those of before', '''
local f = function(a) local x, y, z return a, x, y, z end
local g = function(a, b, c, d) return a, b, c, d end
local a, b, c, d = g(1, 2, 3, 4)
local e, h, i, j = f(5)
local k, l, m, n = g(6)
return a, b, c, d, e, h, i, j, k, l, m, n''')
    case('call: results used at once', '''
local f = function(a, b) return a - b, a + b end
local x = 1 + (f(10, 3))
local y = (f(1, 2)) * (f(5, 1))
local z = f(x, y) == 20
if (f(2, 1)) == 1 then x = x + 1000 end
return x, y, z''')
    case('call: none of the results is asked for', '''
local f = function(a) return a, a, a end
local x = 4
f(x)
f()
f(1, 2, 3, 4, 5)
return x''')
    case('call: more results are asked for than there are',
         'local f = function() return 1 end\nlocal a, b, c, d, e, g = f()\nreturn a, b, c, d, e, g')
    case('call: a program that returns nothing', 'local a = 1\na = a + 1')
    case('call: a program that is empty', '')
    case('call: a return in the midst', 'local a = 1\nif a == 1 then return a end\na = 2\nreturn a, a')
    case('call: in a loop', '''
local clamp = function(x, low, high)
  if x < low then return low end
  if x > high then return high end
  return x
end
local s = 0
for i = -20, 20, 3 do
  local c = clamp(i, -5, 7)
  s = s * 3 + c
end
return s''')


# ---- recursion: a function is passed to itself

FACTORIAL = '''
local f = function(self, n)
  if n <= 1 then return 1 end
  local r = self(self, n - 1)
  return n * r
end
local r = f(f, %s)
return r'''

FIBONACCI = '''
local f = function(self, n)
  if n < 2 then return n end
  local a = self(self, n - 1)
  local b = self(self, n - 2)
  return a + b
end
local r = f(f, %d)
return r'''

GREATEST = '''
local g = function(self, a, b)
  if b == 0 then return a end
  local r = self(self, b, a %% b)
  return r
end
local r = g(g, %d, %d)
return r'''

POWER = '''
local p = function(self, x, n)
  if n == 0 then return 1 end
  local h = self(self, x, n // 2)
  h = h * h
  if n %% 2 == 1 then h = h * x end
  return h
end
local r = p(p, %s, %d)
return r'''

EVEN = '''
local even = function(even, odd, n)
  if n == 0 then return true end
  local r = odd(even, odd, n - 1)
  return r
end
local odd = function(even, odd, n)
  if n == 0 then return false end
  local r = even(even, odd, n - 1)
  return r
end
local a = even(even, odd, %d)
local b = odd(even, odd, %d)
return a, b'''

ACKERMANN = '''
local a = function(self, m, n)
  if m == 0 then return n + 1 end
  if n == 0 then
    local r = self(self, m - 1, 1)
    return r
  end
  local k = self(self, m, n - 1)
  local r = self(self, m - 1, k)
  return r
end
local r = a(a, %d, %d)
return r'''

HANOI = '''
local h = function(self, n, from, to, by)
  if n == 0 then return 0, 0 end
  local a, x = self(self, n - 1, from, by, to)
  local b, y = self(self, n - 1, by, to, from)
  return a + b + 1, (x * 3 + y * 5 + from * 7 + to) %% 1000003
end
local moves, trace = h(h, %d, 1, 2, 3)
return moves, trace'''

# `depth` calls within one another; each level hands back what it got and one more.
NESTED = '''
local f = function(self, n)
  if n <= 1 then return 1, "bottom" end
  local r, s = self(self, n - 1)
  return r + 1, s
end
local r, s = f(f, %d)
return r, s'''


def recursion():
    for n in (0, 1, 5, 10, 15):
        case('recursion: factorial of %d' % n, FACTORIAL % n)
    case('recursion: factorial of numbers', FACTORIAL % '12.0')
    for n in (1, 2, 7, 12, 14):
        case('recursion: Fibonacci %d' % n, FIBONACCI % n)
    for a, b in ((48, 36), (1071, 462), (-48, 36), (17, 5), (LARGEST, 0x5555555555555555), (610, 377)):
        case('recursion: greatest common divisor of %d and %d' % (a, b), GREATEST % (a, b))
    for x, n in ((3, 20), (-7, 23), (2, 63), (2, 64), (1.5, 40), (10, 400), (0.1, 300)):
        case('recursion: %s to the power of %d' % (literal(x), n), POWER % (literal(x), n))
    for n in (0, 1, 6, 13):
        case('recursion: even and odd %d' % n, EVEN % (n, n + 1))
    for m, n in ((0, 5), (1, 4), (2, 2), (2, 4)):
        case('recursion: Ackermann %d, %d' % (m, n), ACKERMANN % (m, n))
    for n in (1, 3, 6):
        case('recursion: towers of %d' % n, HANOI % n)
    for n in range(1, 16):
        case('recursion: %d activations' % (n + 1), NESTED % n)
    for n in (16, 17, 40):
        case('recursion: %d calls, 51 by the paper' % n, NESTED % n, paper=(51, 3))
    case('recursion: sixteen activations, again and again', '''
local f = function(self, n)
  if n == 1 then return 1 end
  local r = self(self, n - 1)
  return r + n
end
local s = 0
for i = 1, 15 do
  local r = f(f, i)
  s = s * 2 + r
end
return s''')
    case('recursion: sixteen activations, and an error in the innermost', '''
local f = function(self, n)
  if n == 1 then
    return n + self
  end
  local r = self(self, n - 1)
  return r + n
end
local r = f(f, 15)
return r''')
    case('recursion: a value that is no function, with sixteen live activations', '''
local f = function(self, n)
  if n == 1 then
    self = n
  end
  local r = self(self, n - 1)
  return r
end
local r = f(f, 15)
return r''')


def wide(locals_, deep, main):
    """A function of many registers that calls itself `deep` times; the main program has `main` locals more."""
    lines = ['local f = function(self, n)']
    lines += ['  local ' + ', '.join('x%d' % i for i in range(locals_))]
    last = 'x%d' % (locals_ - 1)
    lines += ['  if n <= 1 then return n end', '  %s = n' % last, '  local r = self(self, n - 1)', '  return r + %s' % last, 'end']
    if main:
        lines += ['local ' + ', '.join('y%d' % i for i in range(main))]
    return lines + ['local r = f(f, %d)' % deep, 'return r']


def windows():
    """2,048 registers in all live windows. f has its locals and 5 more (self, n, and a call's three), the main program its own and 4."""
    for registers, deep in ((200, 10), (185, 11), (170, 12), (150, 13), (145, 14), (136, 15), (127, 15)):
        inner, outer = registers - 5, 2048 - deep * registers - 4
        case('windows: %d of %d registers, 2048 in all' % (deep, registers), wide(inner, deep, outer))
        case('windows: %d of %d registers, 2049 in all, 52 by the paper' % (deep, registers), wide(inner, deep, outer + 1), paper=(52, 5))
        number = 52 if deep < 15 else 51
        case('windows: %d of %d registers, %d by the paper' % (deep + 1, registers, number), wide(inner, deep + 1, outer), paper=(number, 5))


# ---- strings

TEXTS = [b'', b'a', b'b', b'ab', b'abc', b'abd', b'aB', b'A', b'Z', b'z', b'0', b'9', b'10', b'2', b' ', b'~', b'\x7f', b'\x80', b'\xff', b'\xc3\xa9',
         b'\xe9', b'a\0', b'a\0b', b'a\0a', b'\0', b'\0\0', b'\1', b'a\1', b'hello', b'hello world', b'hellp', b'x' * 63, b'x' * 64,
         b'x' * 63 + b'y', b'x' * 63 + b'\0', b'keep', b'keep-10-years', b'release', b'2019-12-31', b'2020-01-01', b'\n', b'\r\n', b'"', b'\\']


def strings(count):
    for turn in range(count):
        dice = Dice(8000 + turn)
        picked = [dice.pick(TEXTS) for _ in range(3)]
        if dice.chance(2):
            picked[1] = dice.pick([t for t in TEXTS if t[:1] == picked[0][:1]])
        lines = ['local a = %s' % literal(picked[0]), 'local b = %s' % literal(picked[1]), 'local c = %s' % literal(picked[2])]
        lines += ['local r%d = %s %s %s' % (i, x, op, y) for i, (x, op, y) in enumerate(
            [('a', '<', 'b'), ('a', '<=', 'b'), ('b', '>', 'c'), ('b', '>=', 'c'), ('a', '==', 'c'), ('a', '~=', 'b'),
             (literal(dice.pick(TEXTS)), '<', 'c')])]
        lines += ['local least, most = a, a', 'if b < least then least = b end', 'if c < least then least = c end', 'if b > most then most = b end',
                  'if c > most then most = c end']
        case('strings %d' % turn, lines + ['return r0, r1, r2, r3, r4, r5, r6, least, most'])
    case('strings: the same text in two functions', '''
local f = function(x) local t = "text" return x == t, x < t, x <= t, t end
local a, b, c, d = f("text")
local e, g, h, i = f("texs")
return a, b, c, d == "text", e, g, h, i''')
    case('strings: two constants compared', 'local r = "a" < "b"\nlocal s = "b" <= "a"\nlocal t = "a" == "b"\nreturn r, s, t')
    case('strings: bubble sort of five', '''
local a, b, c, d, e = "pear", "apple", "fig", "apples", "Fig"
for pass = 1, 4 do
  if b < a then a, b = b, a end
  if c < b then b, c = c, b end
  if d < c then c, d = d, c end
  if e < d then d, e = e, d end
end
return a, b, c, d, e''')


# ---- errors

UNFIT = {'nil': 'nil', 'true': 'true', 'false': 'false', 'a string': '"text"', 'a function': 'function() return 1 end'}
ARITHMETIC = ['+', '-', '*', '/', '//', '%']
BITWISE = ['&', '|', '~', '<<', '>>']


def errors():
    for operator in ARITHMETIC + BITWISE:
        for i, (name, value) in enumerate(UNFIT.items()):
            one = ['1', '2.0', '-7', '3', '10'][i]
            # The unfit operand on the left, on the right, on both sides; as a register and as a constant.
            if i % 3 == 0:
                lines = ['local u, v = %s, %s' % (value, one), 'local w = 5', 'w = u %s v' % operator]
            elif i % 3 == 1:
                lines = ['local u = %s' % value, 'local w = 5', 'w = %s %s u' % (one, operator)]
            else:
                lines = ['local u = %s' % value, 'local w = 5', 'w = u %s u' % operator]
            case('error: %s %s' % (name, operator), lines + ['return w'])
        case('error: %s of two constants' % operator, ['local u = nil %s 1' % operator, 'return u'])
    for operator in BITWISE:
        for value in ('2.5', '9223372036854775808.0', '1e999', '-1e300')[:2 + len(operator)]:
            case('error: %s %s' % (value, operator), ['local u, v = %s, 3' % value, 'local w = u %s v' % operator, 'return w'])
        case('error: %s NaN' % operator, ['local z = 0.0', 'local u = z / z', 'local w = 3 %s u' % operator, 'return w'])
    for value in (*UNFIT.values(), '0.5', '9223372036854775808.0'):
        case('error: ~ of %s' % value.replace('"', "'"), ['local u = %s' % value, 'local w = ~u', 'return w'])
    for name, value in UNFIT.items():
        case('error: minus %s' % name, ['local u = %s' % value, 'local w = -u', 'return w'])
    for operator, number in (('//', 0), ('%', 0)):
        case('error: 5 %s 0' % operator, ['local u, v = 5, 0', 'local w = u %s v' % operator, 'return w'])
        case('error: 5 %s 0, constants' % operator, ['local w = 5 %s 0' % operator, 'return w'])
        case('error: the smallest %s 0' % operator, ['local u = 0x8000000000000000', 'local w = u %s 0' % operator, 'return w'])
    mixtures = [('1', '"1"'), ('"a"', '1'), ('nil', 'nil'), ('true', 'false'), ('1', 'nil'), ('"a"', 'nil'), ('1.5', 'true'),
                ('function() return 1 end', '2')]
    for operator in ORDER[:4]:
        for left, right in mixtures:
            if operator in ('>', '>=') and left != '"a"':
                continue
            case('error: %s %s %s' % (left.replace('"', "'"), operator, right.replace('"', "'")),
                 ['local u, v = %s, %s' % (left, right), 'local w = u %s v' % operator, 'return w'])
    case('error: functions have no order', ['local f = function() return 1 end', 'local w = f <= f', 'return w'])
    for name, value in list(UNFIT.items())[:4] + [('an integer', '7'), ('a number', '1.5')]:
        case('error: call of %s' % name, ['local u = %s' % value, 'local w = 1', 'u(w)', 'return w'])
    case('error: call of a result that is missing', ['local f = function() return 1 end', 'local a, g = f()', 'local b = g()', 'return b'])
    for name, value in UNFIT.items():
        case('error: loop from %s' % name, ['local u = %s' % value, 'local n = 0', 'for i = u, 3 do', '  n = n + 1', 'end', 'return n'])
        case('error: loop to %s' % name, ['local u = %s' % value, 'local n = 0', 'for i = 1, u do', '  n = n + 1', 'end', 'return n'])
        case('error: loop by %s' % name, ['local u = %s' % value, 'local n = 0', 'for i = 1.5, 3, u do', '  n = n + 1', 'end', 'return n'])
    case('error: in the third turn of a loop', '''
local t, n = nil, 0
for i = 1, 5 do
  if i == 3 then
    n = n + t
  end
  n = n + i
end
return n''')
    case('error: in a function that a function called', '''
local inner = function(a, b)
  local c = a * 2
  return c < b
end
local outer = function(f, x)
  local r = f(x, "ten")
  return r
end
local r = outer(inner, 5)
return r''')
    case('error: of an argument that is missing', '''
local f = function(a, b)
  local c = a
  return c & b
end
local r = f(1)
return r''')
    case('error: only where it is reached', '''
local u
local f = function(x)
  if x == nil then return 0 end
  return x + 1
end
local a = f(u)
local b = u and u + 1
local c = a == 0 or u < 1
return a, b, c''')


# ---- figures that arrive as text: the answers are numbers, or those of bit operations, where Lua 5.3 does as the manual says

FIGURES = {
    'division': 'local y = "10"\nreturn y / 4, 10 / "4", y / "4", " 0x10\\t" / 3, "1" / "0", -1 / "0", "0" / 0 == 0, y',
    'numbers': '''
local y = "1.5"
local a, b, c = y * 2, 2 + y, y - "0.25"
local d, e = "10" + 0.5, 1.0 - "10"
local f, g, h = -y, -"-0.0", -"0.0"
return a, b, c, d, e, f, g, h, y''',
    'whole quotients and remainders': '''
local a = "7.5" // 2
local b = 7 // "2.0"
local c = 5 // "0.0"
local d = 5.0 // "0"
local e = "7.5" % 2
local f = -7.5 % "2"
local g = 5.0 % "0"
return a, b, c, d, e, f, g''',
    'forms': '''
return "5." + 0, ".5" + 0, "5.e1" + 0, ".5E+1" + 0, "1e3" + 0, "+1.50" + 0, "-2.5e-1" + 0, "0e99999" + 0, "-0.000e-400" + 0,
  "\\9\\10\\11\\12\\13 2.5\\9\\10\\11\\12\\13 " + 0, "1e0000000000000000022" + 0''',
    'bounds': '''
return "1e22" + 0, "0.1e23" + 0, "1e-22" + 0, "123456789012345e22" + 0, "999999999999999e-22" + 0, "0.1" + 0, "0.3" - 0.1,
  "10000000000000000000" + 0, "-10000000000000000000" + 0, "1000000000000000000000000e-10" + 0''',
    'bits': '''
local y = "12"
local a, b, c = y & 10, 12 & "0xA", "0XfF" | "3.0"
local d, e, f = "5" ~ "1", "1" << "4", " -1 " >> 1
local g, h = ~"0", ~"3.0"
return a, b, c, d, e, f, g, h, "1e3" & 8, "-0.0" | 0, 1 << y, y''',
    'integers at their bounds': '''
return "9223372036854775807" | 0, "-9223372036854775808" | 0, "0xffffffffffffffff" | 0, "-0xffffffffffffffff" | 0, "0x10000000000000001" | 0,
  "-0x8000000000000000" | 0, "000000000000000000000000000000000000000000000000000000000007" | 0''',
    'years and a half': '''
local term, grace = "7.5", " .25 "
local kept, years = 0, 0
for age = 0, 12 do
  if age <= term + grace then
    kept = kept | 1 << age
    years = years + age * "0.5"
  end
end
return kept, years, term, term == "7.5", term < grace, "10" < "9"''',
}
# A text of no figure on the left, on the right or on both sides, by the operator.
NO_FIGURES = {'+': '', '-': '0x', '*': '1e', '/': '1 2', '//': '- 7', '%': '.', '&': ' ', '|': '+', '~': '7 years', '<<': '1_000', '>>': '0xg'}


def figures():
    for name, source in FIGURES.items():
        case('figures: ' + name, source)
    for turn, (operator, text) in enumerate(NO_FIGURES.items()):
        left, right = [('u', '7'), ('"7"', 'u'), ('u', 'u')][turn % 3]
        case("figures: no figure, '%s' %s" % (text, operator), ['local u = "%s"' % text, 'local w = %s %s %s' % (left, operator, right), 'return w'])
    for turn, operator in enumerate(NO_FIGURES):
        if operator in BITWISE:
            text = ['1.5', '1e19', '-1e-1'][turn % 3]
            case("figures: '%s' %s" % (text, operator), ['local u = "%s"' % text, 'local w = 1 %s u' % operator, 'return w'])
    for sign, text in (('-', '1e+'), ('~', '2.5')):
        case("figures: %s of '%s'" % ('minus' if sign == '-' else sign, text), ['local u = "%s"' % text, 'local w = %su' % sign, 'return w'])


# ---- algorithms

ALGORITHMS = {
    'primes below 200': '''
local count, last = 0, 0
for n = 2, 199 do
  local prime = true
  local d = 2
  while d * d <= n do
    if n % d == 0 then prime = false break end
    d = d + 1
  end
  if prime then
    count = count + 1
    last = n
  end
end
return count, last''',
    'Collatz of 27': '''
local n, steps, most = 27, 0, 0
while n ~= 1 do
  if n % 2 == 0 then n = n // 2 else n = 3 * n + 1 end
  steps = steps + 1
  if n > most then most = n end
end
return steps, most''',
    'whole square roots': '''
local s = 0
for n = 0, 400, 7 do
  local low, high = 0, n + 1
  while high - low > 1 do
    local mid = (low + high) // 2
    if mid * mid <= n then low = mid else high = mid end
  end
  s = s * 3 + low
end
return s''',
    'bits that are set': '''
local n, count = 0x0123456789abcdef, 0
while n ~= 0 do
  n = n & (n - 1)
  count = count + 1
end
return count''',
    'bits turned round': '''
local n, r = 0x0123456789abcdef, 0
for i = 1, 64 do
  r = r << 1 | n & 1
  n = n >> 1
end
return r''',
    'CRC-32 of eight bytes': '''
local crc = 0xffffffff
for b = 49, 57 do
  crc = crc ~ b
  for i = 1, 8 do
    if crc & 1 == 1 then crc = crc >> 1 ~ 0xedb88320 else crc = crc >> 1 end
  end
end
return crc ~ 0xffffffff''',
    'FNV-1a': '''
local h = 0xcbf29ce484222325
for b = 97, 122 do
  h = h ~ b
  h = h * 0x100000001b3
end
return h''',
    'xorshift': '''
local x, s = 88172645463325252, 0
for i = 1, 50 do
  x = x ~ x << 13
  x = x ~ x >> 7
  x = x ~ x << 17
  s = s + x
end
return x, s''',
    'a linear congruence': '''
local x = 42
for i = 1, 100 do x = x * 6364136223846793005 + 1442695040888963407 end
return x, x >> 33, x // 1000, x % 1000''',
    'Fibonacci past the wrap': '''
local a, b = 0, 1
for i = 1, 100 do a, b = b, a + b end
return a, b''',
    'factorials past the wrap': '''
local f, g = 1, 1.0
for i = 1, 30 do
  f = f * i
  g = g * i
end
return f, g''',
    'a square root by Newton': '''
local x, turns = 2.0, 0
local last = 0.0
while x ~= last and turns < 50 do
  last = x
  x = (x + 2 / x) / 2
  turns = turns + 1
end
return x, turns''',
    'pi by Leibniz': '''
local s, sign = 0.0, 1
for i = 0, 999 do
  s = s + sign / (2 * i + 1)
  sign = -sign
end
return 4 * s''',
    'e by its series': '''
local s, t = 0.0, 1.0
for i = 1, 25 do
  s = s + t
  t = t / i
end
return s, t''',
    'sine by its series': '''
local x = 0.75
local s, t = 0.0, x
for i = 1, 15 do
  s = s + t
  t = -t * x * x / (2 * i * (2 * i + 1))
end
return s''',
    'a root by halves': '''
local low, high, turns = 1.0, 2.0, 0
repeat
  local mid = (low + high) / 2
  if mid * mid * mid < 2 then low = mid else high = mid end
  turns = turns + 1
until high - low < 1e-12
return low, turns''',
    'an integral by Simpson': '''
local f = function(x) return x * x * x - 2 * x + 1 / (1 + x * x) end
local n, a, b = 20, 0, 3.0
local h = (b - a) / n
local s = (f(a))
for i = 1, n - 1 do
  local y = f(a + i * h)
  if i % 2 == 1 then s = s + 4 * y else s = s + 2 * y end
end
s = s + (f(b))
return s * h / 3''',
    'harmonic numbers forward and back': '''
local up, down = 0.0, 0.0
for i = 1, 200 do up = up + 1 / i end
for i = 200, 1, -1 do down = down + 1 / i end
return up, down, up == down''',
    'the sum of a tenth': '''
local s, n = 0.0, 0
while s < 1 do
  s = s + 0.1
  n = n + 1
end
return s, n, s == 1, s - 1''',
    'binomial coefficients': '''
local s = 0
for n = 0, 20 do
  local c = 1
  for k = 0, n do
    s = s ~ c
    c = c * (n - k) // (k + 1)
  end
end
return s''',
    'powers modulo a prime': '''
local power = function(x, n, m)
  local r = 1
  x = x % m
  while n > 0 do
    if n & 1 == 1 then r = r * x % m end
    x = x * x % m
    n = n >> 1
  end
  return r
end
local a = power(3, 1000, 1000003)
local b = power(-7, 123456789, 998244353)
local c = power(2, 1000002, 1000003)
return a, b, c''',
    'digits turned round': '''
local turn = function(n)
  local r = 0
  while n > 0 do
    r = r * 10 + n % 10
    n = n // 10
  end
  return r
end
local a = turn(1234567)
local b = turn(1000)
local c = turn(9007199254740993)
return a, b, c''',
    'perfect numbers': '''
local found, count = 0, 0
for n = 2, 130 do
  local s = 1
  for d = 2, n // 2 do
    if n % d == 0 then s = s + d end
  end
  if s == n then
    found = found * 1000 + n
    count = count + 1
  end
end
return found, count''',
    'the largest common measure in a loop': '''
local s = 0
for a = -6, 6 do
  for b = 1, 9, 2 do
    local x, y = a, b
    while y ~= 0 do x, y = y, x % y end
    s = s * 5 + x
  end
end
return s''',
    'leap years': '''
local count, last = 0, 0
for year = 1896, 2104 do
  if year % 4 == 0 and (year % 100 ~= 0 or year % 400 == 0) then
    count = count + 1
    last = year
  end
end
return count, last''',
    'days since 1970': '''
local days = function(y, m, d)
  if m <= 2 then y = y - 1 end
  local era = y // 400
  local year = y - era * 400
  local month = m + 9
  if m > 2 then month = m - 3 end
  local day = (153 * month + 2) // 5 + d - 1
  return era * 146097 + year * 365 + year // 4 - year // 100 + day - 719468
end
local a = days(1970, 1, 1)
local b = days(2024, 2, 29)
local c = days(1600, 3, 1)
local d = days(-1, 12, 31)
return a, b, c, d, (b + 4) % 7''',
    'a retention rule': '''
local keep = function(kind, age, size)
  if kind == "deed" then return true end
  if kind == "mail" then return age <= 365 * 2 end
  if kind >= "log" and kind < "loh" then return age <= 30 and size < 1e6 end
  return age / 365.25 < 10
end
local bits = 0
for age = 0, 4000, 250 do
  local a = keep("deed", age, 1)
  local b = keep("mail", age, 1)
  local c = keep("log", age // 10, age * 300)
  local d = keep("report", age, 1)
  if a then bits = bits * 3 + 1 end
  if b then bits = bits * 5 + 1 end
  if c then bits = bits * 7 + 1 end
  if d then bits = bits * 11 + 1 end
end
return bits''',
    'release in order of age': '''
local released, freed, age = 0, 0, 4000
repeat
  local size = age * 7919 % 1000
  if size > 400 or age > 3650 then
    released = released + 1
    freed = freed + size
  end
  age = age - 37
until freed >= 20000 or age < 0
return released, freed, age''',
    'rounding to even': '''
local s = 0
for i = -9, 9 do
  local x = i / 2
  local f = x // 1
  local d = x - f
  if d > 0.5 or d == 0.5 and f % 2 == 1 then f = f + 1 end
  s = s * 3 + f
end
return s''',
    'nearest numbers': '''
local base, s = 9007199254740992, 0
for i = -6, 6 do
  local x = (base + i) + 0.0
  if x == base + i then s = s * 2 + 1 else s = s * 2 end
end
return s''',
    'floor division and modulus': '''
local s, t = 0, 0
for a = -7, 7 do
  for b = -3, 3 do
    if b ~= 0 then
      s = s * 3 + a // b
      t = t * 5 + a % b
      if a // b * b + a % b ~= a then s = nil end
    end
  end
end
return s, t''',
    'shifts by every count': '''
local left, right = 0, 0
local n = -81985529216486896
for i = -70, 70 do
  left = left * 3 + (n << i)
  right = right * 5 + (n >> i)
end
return left, right''',
    'a mandelbrot point': '''
local count = 0
for i = 0, 9 do
  local cr, ci = -2 + i * 0.25, 0.3
  local x, y, n = 0.0, 0.0, 0
  while x * x + y * y <= 4 and n < 40 do
    x, y = x * x - y * y + cr, 2 * x * y + ci
    n = n + 1
  end
  count = count * 41 + n
end
return count''',
    'the logistic map': '''
local x = 0.2
for i = 1, 100 do x = 3.9 * x * (1 - x) end
return x''',
    'a matrix to a power': '''
local a, b, c, d = 2, 1, 1, 1
for i = 1, 60 do a, b, c, d = 2 * a + b, a + b, 2 * c + d, c + d end
return a, b, c, d''',
    'Gray codes': '''
local s, last, same = 0, 0, true
for i = 1, 64 do
  local g = i ~ i >> 1
  local change = g ~ last
  same = same and change & (change - 1) == 0
  s = s ~ g << i
  last = g
end
return s, same''',
    'whole logarithms': '''
local s = 0
local n = 1
for i = 0, 62 do
  local m, bits = n, 0
  while m > 1 do m, bits = m >> 1, bits + 1 end
  s = s * 7 + bits
  n = n * 2
end
return s, n''',
    'numbers that overflow': '''
local x, n = 1.0, 0
while x < 1e999 do
  x = x * 1e10
  n = n + 1
end
return x, n, -x, x - x, 1 / x, -1 / x''',
    'numbers that vanish': '''
local x, n = 1.0, 0
while x > 0 do
  x = x / 1024
  n = n + 1
end
return x, n, 1 / x, -x, 1 / -x''',
    'a counter in three digits': '''
local a, b, c, n = 0, 0, 0, 0
repeat
  a = a + 1
  if a == 3 then
    a = 0
    b = b + 1
    if b == 4 then
      b = 0
      c = c + 1
    end
  end
  n = n + 1
until c == 5
return a, b, c, n''',
    'gotos': '''
local i, s = 0, 0
::top::
i = i + 1
if i % 3 == 0 then goto skip end
s = s * 2 + i
::skip::
if i < 20 then goto top end
do
  goto last
end
s = -1
::last::
return i, s''',
}


def algorithms():
    for name, source in ALGORITHMS.items():
        case('algorithm: ' + name, source)


# ---- closures: document 02, 6/12

# Each with several figures for A, B and C.
CLOSURES = {
    'a counter': '''
local function counter(n)
  return function(by) n = n + by return n end
end
local f, g = counter(A), counter(B)
local a = f(1)
local b = g(C)
local c = f(C)
local d = g(A)
return a, b, c, d, (f(0)), (g(0))''',
    'two functions share what they hold': '''
local function account(sum)
  local function put(x) sum = sum + x end
  local function has() return sum end
  return put, has
end
local put, has = account(A)
put(B)
local first = has()
local other, none = account(C)
put(C)
other(1)
return first, (has()), (none())''',
    'three functions share what they hold': '''
local low, high = A, B
local function set(x, y) low, high = x, y end
local function width() return high - low end
local function swap() low, high = high, low end
local a = width()
swap()
local b = width()
set(C, A)
swap()
return a, b, (width()), low, high''',
    'a variable outlives its block': '''
local f, g
do
  local x = A
  f = function() x = x + B return x end
  g = function() return x * 2 end
end
local y = C
do
  local z = y
  y = f() + z
end
return (f()), (g()), y''',
    'a loop gives each pass a variable': '''
local f, g, h
for i = A, A + 2 do
  if i == A then f = function(x) i = i + x return i end
  elseif i == A + 1 then g = function(x) i = i * x return i end
  else h = function() return i end end
end
local a, b = f(B), g(C)
return a, b, (f(1)), (g(2)), (h())''',
    'a while gives each pass a variable': '''
local f, g
local n = 0
while n < 3 do
  n = n + 1
  local x = n * A
  if n == 2 then f = function() x = x + B return x end end
  if n == 3 then g = function() return x end end
end
local a = f()
return a, (f()), (g()), n''',
    'a repeat sees its variable in the condition': '''
local f
local n = 0
repeat
  n = n + 1
  local x = n + A
  f = function() x = x + 1 return x end
  f()
until x > A + B or n > 5
return n, (f()), (f())''',
    'a loop is left with its variable kept': '''
local f
for i = 1, 9 do
  local x = i * B
  f = function(y) x = x + y return x, i end
  if x > A then break end
end
local a, b = f(C)
local c, d = f(C)
return a, b, c, d''',
    'a pass is left by goto': '''
local f, g
local s = 0
for i = 1, 4 do
  local x = i + A
  local function add() s = s + x end
  if i == 2 then g = add goto next end
  f = add
  do
    local y = x * B
    x = y
    add()
  end
  ::next::
end
f()
g()
return s''',
    'a block is left backwards': '''
local f
local n = 0
::again::
do
  local x = n * A
  if not f or n == 2 then f = function() x = x + B return x end end
  n = n + 1
  if n < 4 then goto again end
end
return n, (f()), (f())''',
    'a function calls itself by name': '''
local function fact(n)
  if n < 2 then return 1 end
  return n * fact(n - 1)
end
local function fib(n)
  if n < 2 then return n end
  return fib(n - 1) + fib(n - 2)
end
return (fact(A % 9 + 2)), (fib(B % 7 + 3))''',
    'functions call one another': '''
local odd
local function even(n)
  if n == 0 then return true end
  return (odd(n - 1))
end
function odd(n)
  if n == 0 then return false end
  return (even(n - 1))
end
local a = even(A % 12)
return a, (odd(B % 12)), (even(C % 12))''',
    'a function changes the name that it is called by': '''
local calls = 0
local f
f = function(x)
  calls = calls + 1
  f = function(y) calls = calls + 10 return y * B end
  return x + A
end
local g = f
local a = f(C)
local b = f(C)
local c = g(C)
return a, b, c, calls''',
    'a variable of the function around the one around': '''
local function outer(x)
  local function middle(y)
    local function inner(z)
      x = x + z
      y = y * 2
      return x + y
    end
    return inner
  end
  local f = middle(A)
  local g = middle(B)
  return f, g, function() return x end
end
local f, g, h = outer(C)
local a, b, c = f(1), g(2), f(3)
return a, b, c, (h())''',
    'through functions that do not use it': '''
local x = A
local function one()
  local function two()
    local function three()
      local function four() x = x + B return x end
      return four
    end
    return (three())
  end
  return (two())
end
local f = one()
local a = f()
x = x * C
return a, (f()), x''',
    'parameters are variables too': '''
local function make(a, b, c)
  local function rotate() a, b, c = b, c, a end
  local function read() return a * 100 + b * 10 + c end
  rotate()
  return rotate, read
end
local rotate, read = make(A, B, C)
local x = read()
rotate()
local y = read()
rotate()
return x, y, (read())''',
    'a parameter that is missing': '''
local function make(a, b)
  return function(x) if b then a = a + x else b = x end return a, b end
end
local f = make(A)
local a, b = f(B)
local c, d = f(C)
return a, b, c, d''',
    'functions are handed on': '''
local function twice(f, x) local y = f(x) return (f(y)) end
local function compose(f, g) return function(x) local y = g(x) return (f(y)) end end
local function add(n) return function(x) return x + n end end
local function times(n) return function(x) return x * n end end
local f = compose(add(A), (times(B)))
local g = compose(times(B), (add(A)))
return (f(C)), (g(C)), (twice(f, C)), (twice(compose(f, g), 1))''',
    'one argument at a time': '''
local function curry(f) return function(a) return function(b) return function(c) return (f(a, b, c)) end end end end
local f = curry(function(a, b, c) return a * b - c end)
local g = f(A)
local h = g(B)
local k = g(C)
return (h(C)), (h(A)), (k(B)), (k(0))''',
    'numbers made of functions': '''
local function zero(f) return function(x) return x end end
local function succ(n) return function(f) local g = n(f) return function(x) local y = g(x) return (f(y)) end end end
local function value(n) local count = 0 local f = n(function(x) count = count + 1 return x + A end) local y = f(B) return y, count end
local one = succ(zero)
local three = succ((succ(one)))
local a, b = value(three)
return a, b''',
    'recursion without a name': '''
local function fix(f)
  local function g(x) return (f(g, x)) end
  return g
end
local sum = fix(function(self, n) if n < 1 then return B end return n + self(n - 1) end)
return (sum(A % 5)), (sum(C % 4))''',
    'a memory': '''
local function remembered(f)
  local key, value
  local misses = 0
  return function(x)
    if key ~= x then key, value, misses = x, f(x), misses + 1 end
    return value
  end, function() return misses end
end
local f, misses = remembered(function(x) return x * x + A end)
local a, b, c, d = f(B), f(B), f(C), f(B)
return a, b, c, d, (misses())''',
    'a sequence': '''
local function fibs(a, b)
  return function() a, b = b, a + b return a end
end
local next = fibs(A, B)
local s = 0
for i = 1, 6 do s = s * 7 + next() end
local other = fibs(C, A)
return s, (next()), (other()), (next()), (other())''',
    'values of every kind': '''
local function cell(v) return function() return v end, function(w) v = w end end
local get, set = cell("town")
local a = get()
set(nil)
local b = get()
set(false)
local c = get()
set(A / 4)
local d = get()
set(-B)
local e = get()
set("")
return a, b, c, d, e, (get())''',
    'a function in a variable of a function': '''
local function holder(f) return function(x) return (f(x)) end, function(g) f = g end end
local call, put = holder(function(x) return x + A end)
local a = call(C)
put(function(x) return x * B end)
local b = call(C)
put(call)
put(function(x) return x - A end)
return a, b, (call(C))''',
    'the last variable that closes first': '''
local f, g, h
do
  local x = A
  do
    local y = B
    do
      local z = C
      f = function() x = x + 1 y = y + 1 z = z + 1 return x * 100 + y * 10 + z end
    end
    g = function() y = y * 2 return x + y end
  end
  h = function() x = x * 2 return x end
end
local a, b, c = f(), g(), h()
return a, b, c, (f()), (g()), (h())''',
    'variables that hide one another': '''
local x = A
local function f() x = x + 1 return x end
local x = B
local function g() x = x + f() return x end
local x = C
local function h(x) x = x + g() return x end
return (h(x)), (g()), (f()), x''',
    'results go into a variable that is held': '''
local x, y = A, B
local function see() return x * 1000 + y end
local function both(p, q) return q, p end
x, y = both(x, y)
local a = see()
y, x = both(C, (see()))
return a, (see()), x, y''',
    'a loop writes what is held': '''
local last, s = 0, 0
local function keep(i) last = i s = s + last end
for i = A, A + 4 do
  local function own() i = i * B return i end
  keep((own()))
  keep(i)
end
return last, s''',
    'a sum over calls that are still open': '''
local sum = 0
local function walk(n, f)
  local function here() sum = sum + n f() end
  if n < 1 then here() return end
  walk(n - 1, here)
end
walk(A % 6, function() sum = sum * 2 + B end)
return sum''',
    'each call has its own': '''
local function deep(n, f)
  local x = n * A
  local function g() x = x + 1 if f then return x + f() end return x end
  if n == 0 then local a = g() return a * 100 + g() end
  return (deep(n - 1, g))
end
return (deep(B % 5, nil)), (deep(1, nil))''',
    'eight variables from outside': '''
local a, b, c, d, e, f, g, h = 1, 2, 3, 4, 5, 6, 7, 8
local function all(x)
  a, b, c, d, e, f, g, h = b, c, d, e, f, g, h, a + x
  return a + b * 2 + c * 3 + d * 4 + e * 5 + f * 6 + g * 7 + h * 8
end
local x = all(A)
local y = all(B)
return x, y, (all(C)), a, h''',
    'and, or, not over what is held': '''
local on, off, n = true, false, A
local function toggle() on, off = not on, on and n or off return on end
local a = toggle()
local b = on or off
local c = toggle() and off
return a, b, c, on, off, (toggle()) or B''',
    'an error that names a variable from outside: +': '''
local x
local function f(y)
  x = x + y
end
f(A)''',
    'an error that names a variable from outside: call': '''
local g
local function f(y)
  if y > B then
    g(y)
  end
  return y
end
local a = f(B)
return a, (f(B + 1))''',
    'an error after what was closed': '''
local function make(x) return function() x = x - 1 return A // x end end
local f = make(2)
local a = f()
f()''',
    'an error in the third function within': '''
local s = "x"
local function one()
  local function two()
    local function three()
      return s < A
    end
    return (three())
  end
  return (two())
end
return (one())''',
}


def closures(many, by_chance):
    dice = Dice(600)
    for name, source in CLOSURES.items():
        for turn in range(1 if name.startswith('an error') else many):
            figures = {letter: str(dice.below(9) + 1) for letter in 'ABC'}
            case('closures: %s %d' % (name, turn), re.sub(r'\b[ABC]\b', lambda found: figures[found[0]], source))
    seed, most = 0, len(CASES) + by_chance
    while len(CASES) < most:
        lines = program(seed, 1, 3)
        # those that make some, and are short enough to be read
        if sum('function' in line for line in lines) > 1 and len(lines) < 45:
            case('closures: by chance %d' % seed, lines)
        seed += 1
    every = 'local f\nfor i = 1, %d do\n  f = function() i = i + 1 return i end\nend\nreturn (f())'
    case('closures: 64 of them', every % 64)
    case('closures: 65 of them, 53 by the paper', every % 65, paper=(53, 3))
    every = ('local f\nlocal s = 0\nfor i = 1, %d do\n  local a, b, c = i, i, i\n  f = function()\n    a = a + 1\n    b = b + a\n    c = c + b\n    return c\n'
             '  end\n  s = s + f()\nend\nreturn s')
    case('closures: 126 variables closed', every % 42)
    case('closures: 129 variables closed, 54 by the paper', every % 43, paper=(54, 10))


# ---- shapes: long, wide and many

def shapes():
    lines = ['local s = 0']
    lines += ['s = s * 3 + %d' % (1000 + 7 * i) for i in range(250)]
    case('shape: 250 constants', lines + ['return s'])
    lines = ['local s, n = 0, 0', 'for i = 1, 5 do', '  if i ~= 3 then']
    lines += ['    s = s * 3 + i', '    n = n ~ s'] * 100
    case('shape: jumps of some 300 instructions', lines + ['  else', '    s = -s', '  end', 'end', 'return s, n'])
    lines = ['local s = 0', 'while s < 3000 do', '  if s % 2 == 0 then']
    lines += ['    s = s + 1'] * 500 + ['  else'] + ['    s = s + 2', '    s = s - 1'] * 400
    case('shape: jumps of a thousand instructions', lines + ['  end', 'end', 'return s'])
    lines = ['local s = 1'] + ['local f%d = function(x) return x * %d + %d end' % (i, i + 2, i) for i in range(31)]
    lines += ['s = (f%d(s))' % i for i in range(31)]
    case('shape: 32 prototypes', lines + ['return s'])
    lines = ['local f = function(x)']
    for depth in range(10):
        lines.append('  ' * depth + '  local f = function(x)')
    lines.append('  ' * 11 + '  return x + 1')
    for depth in reversed(range(10)):
        lines += ['  ' * depth + '  end', '  ' * depth + '  local r = f(x * 2)', '  ' * depth + '  return r + %d' % depth]
    case('shape: functions within functions', lines + ['end', 'local r = f(1)', 'return r'])
    case('shape: 250 results', ['local f = function() return %s end' % ', '.join(str(i * i) for i in range(250)),
                                'local %s = f()' % ', '.join('r%d' % i for i in range(190)), 'return r0, r1, r77, r188, r189'])
    case('shape: 240 arguments', ['local f = function(%s) return %s end' % (', '.join('p%d' % i for i in range(190)), 'p0, p1, p100, p188, p189'),
                                  'local a, b, c, d, e = f(%s)' % ', '.join(str(i - 9) for i in range(240)), 'return a, b, c, d, e'])
    case('shape: 254 results of a program', 'return ' + ', '.join(str(i % 5) for i in range(254)))
    case('shape: 200 locals', ['local %s = %s' % (', '.join('x%d' % i for i in range(200)), ', '.join(str(i % 7) for i in range(200))),
                               'return %s' % ' + '.join('x%d' % i for i in range(0, 200, 3))])
    case('shape: nils set and cleared', ['local %s' % ', '.join('x%d' % i for i in range(100)), 'x3, x50, x99 = 1, 2, 3',
                                         'local y0, y1, y2', 'return x0, x3, x49, x50, x51, x98, x99, y0, y1, y2'])
    case('shape: strings of every length', ['return ' + ', '.join(literal(b'abcdefgh'[i % 8:i % 8 + 1] * i) for i in range(0, 65, 4))])
    case('shape: every byte', ['return ' + ', '.join(literal(bytes(range(i, i + 32))) for i in range(0, 256, 32))])
    case('shape: the bits of numbers', ['return ' + ', '.join(literal(v) for v in NUMBERS)])
    case('shape: the bits of integers', ['return ' + ', '.join(literal(v) for v in INTEGERS)])


worked()
arithmetic(84)
modulo(8)
comparisons(40)
truths(36)
flow(56)
loops(40)
calls(32)
recursion()
windows()
strings(26)
errors()
figures()
algorithms()
closures(6, 80)
shapes()
