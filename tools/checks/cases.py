#!/usr/bin/env python3
"""Makes the cases of crates/checks and what must be answered. The answers are written here by hand; tools/oracle has to agree with each.

    python3 tools/checks/cases.py              writes crates/checks/stdin and crates/checks/stdout
    python3 tools/checks/cases.py --check      writes nothing, and fails where one of the two is stale

Running it again writes the same bytes. The list's form stands at the head of crates/checks/src/main.rt."""
import os
import sys

sys.dont_write_bytecode = True
sys.path.insert(1, os.path.join(os.path.dirname(os.path.realpath(__file__)), '..'))
from oracle.image import STORAGE, Prototype, printed
from oracle.kept import checking, keep
from oracle.machine import Machine
from oracle.rules import BINARY, COMPARISONS, OPERATIONS, UNARY, instruction

# ---- the list

LIST, ANSWERS, NAMES = [], [], set()
SLICES = dict(zip('tckwx', STORAGE))


def case(name, wants, protos, changes=(), lend='11111'):
    """protos: (registers, constants, instructions, parameters = 0, descriptors = ()). wants: number, prototype, instruction, by hand."""
    assert name not in NAMES, name
    NAMES.add(name)
    image = printed([prototype(*proto) for proto in protos])
    m = Machine(beyond=1)
    assert m.read(image) == (0, len(protos)), name
    for letter, cell, value in changes:
        getattr(m, SLICES[letter])[cell] = value
    m.lend(lend)
    assert m.check() == wants, (name, m.check(), wants)
    LIST.append('# ' + name + '\n' + image + ''.join('=%s%05d:%016x\n' % change for change in changes) + '.' + lend + '\n')
    ANSWERS.append('# %s\n%d %d %d \n' % (name, *wants))


def prototype(registers, constants, code, parameters=0, descriptors=()):
    return Prototype(registers, parameters, constants, code, descriptors)


NIL = b'\0'
RETURN = (12, 0, 0, 0, 0)


def single(what, wants, name, flags, a, b, c, p=0, n=2, registers=4, constants=3):
    """One instruction at place p of n in a lone prototype, all others Return of nothing."""
    code = [RETURN] * n
    code[p] = instruction(name, a, b, c, flags)
    case('%s: %s' % (name, what), (wants, 0, p if wants else 0), [(registers, [NIL] * constants, code)])


def offset(n):
    return n >> 8 & 255, n & 255


def flags_and_unused(name, a, b, c, n, unused):
    single('flag 1', 11, name, 1, a, b, c, n=n)
    single('flag 2', 11, name, 2, a, b, c, n=n)
    single('flag 128', 11, name, 128, a, b, c, n=n)
    if unused:
        single('c is 1', 11, name, 0, a, b, 1, n=n)
        single('c is 255', 11, name, 0, a, b, 255, n=n)


def unary():
    for name in UNARY:
        single('the last register twice', 0, name, 0, 3, 3, 0)
        single('dest at R', 12, name, 0, 4, 0, 0)
        single('source at R', 12, name, 0, 0, 4, 0)
        single('nothing after it', 14, name, 0, 0, 0, 0, n=1)
        single('last of three', 14, name, 0, 0, 0, 0, p=2, n=3)
        single('11 and 12', 11, name, 1, 4, 0, 0)
        single('12 and 14', 12, name, 0, 4, 0, 0, n=1)
        flags_and_unused(name, 0, 0, 0, 2, True)


def loads():
    name = 'LoadConstant'
    single('the last register and constant', 0, name, 0, 3, 0, 2)
    single('dest at R', 12, name, 0, 4, 0, 0)
    single('constant at K', 13, name, 0, 0, 0, 3)
    single('constant 255 of 256', 0, name, 0, 0, 0, 255, constants=256)
    single('constant 256 of 256', 13, name, 0, 0, 1, 0, constants=256)
    single('constant 65535', 13, name, 0, 0, 255, 255, constants=256)
    single('no constants', 13, name, 0, 0, 0, 0, constants=0)
    single('nothing after it', 14, name, 0, 0, 0, 0, n=1)
    single('12 and 13', 12, name, 0, 4, 0, 3)
    single('13 and 14', 13, name, 0, 0, 0, 3, n=1)
    flags_and_unused(name, 0, 0, 0, 2, False)
    name = 'LoadBool'
    single('false, no skip', 0, name, 0, 3, 0, 0)
    single('true, no skip', 0, name, 0, 3, 1, 0)
    single('skip to the last', 0, name, 0, 3, 0, 1, n=3)
    single('skip one too far', 14, name, 0, 3, 0, 1, n=2)
    single('skip two too far', 14, name, 0, 3, 0, 1, n=1)
    single('nothing after it', 14, name, 0, 3, 0, 0, n=1)
    single('dest at R', 12, name, 0, 4, 0, 0)
    single('value 2', 11, name, 0, 0, 2, 0)
    single('skip 2', 11, name, 0, 0, 0, 2, n=3)
    single('skip 2 with nothing after it', 11, name, 0, 0, 0, 2, n=1)
    flags_and_unused(name, 0, 0, 0, 2, False)
    name = 'LoadNil'
    single('all of R', 0, name, 0, 0, 4, 0)
    single('one more than R', 12, name, 0, 0, 5, 0)
    single('the last one', 0, name, 0, 3, 1, 0)
    single('two from the last', 12, name, 0, 3, 2, 0)
    single('none at R', 0, name, 0, 4, 0, 0)
    single('none past R', 12, name, 0, 5, 0, 0)
    single('one at R', 12, name, 0, 4, 1, 0)
    single('255 of 255', 0, name, 0, 0, 255, 0, registers=255)
    single('255 of 254', 12, name, 0, 0, 255, 0, registers=254)
    single('255 from 1', 12, name, 0, 1, 255, 0, registers=255)
    single('none at 255', 0, name, 0, 255, 0, 0, registers=255)
    single('nothing after it', 14, name, 0, 0, 1, 0, n=1)
    flags_and_unused(name, 0, 1, 0, 2, True)


def calls():
    name = 'Call'
    single('arguments and returns fill R', 0, name, 0, 0, 3, 4)
    single('one argument too many', 12, name, 0, 0, 4, 0)
    single('one return too many', 12, name, 0, 0, 0, 5)
    single('the last register, one return', 0, name, 0, 3, 0, 1)
    single('the last register, one argument', 12, name, 0, 3, 1, 0)
    single('the last register, two returns', 12, name, 0, 3, 0, 2)
    single('function at R, nothing else', 12, name, 0, 4, 0, 0)
    single('254 arguments of 255 registers', 0, name, 0, 0, 254, 0, registers=255)
    single('254 arguments of 254 registers', 12, name, 0, 0, 254, 0, registers=254)
    single('254 returns of 254 registers', 0, name, 0, 0, 0, 254, registers=254)
    single('254 returns of 253 registers', 12, name, 0, 0, 0, 254, registers=253)
    single('255 arguments', 10, name, 0, 0, 255, 0, registers=255)
    single('255 returns', 10, name, 0, 0, 0, 255, registers=255)
    single('255 arguments, flag and range', 10, name, 1, 255, 255, 0)
    single('nothing after it', 14, name, 0, 0, 0, 0, n=1)
    flags_and_unused(name, 0, 0, 0, 2, False)
    name = 'Return'
    single('all of R', 0, name, 0, 0, 4, 0)
    single('one more than R', 12, name, 0, 0, 5, 0)
    single('the last one', 0, name, 0, 3, 1, 0)
    single('none at R', 0, name, 0, 4, 0, 0)
    single('none past R', 12, name, 0, 5, 0, 0)
    single('none at 255', 0, name, 0, 255, 0, 0, registers=255)
    single('254 of 254', 0, name, 0, 0, 254, 0, registers=254)
    single('254 of 253', 12, name, 0, 0, 254, 0, registers=253)
    single('count 255', 10, name, 0, 0, 255, 0, registers=255)
    single('10 and 11', 10, name, 1, 0, 255, 1)
    single('nothing after it', 0, name, 0, 0, 0, 0, n=1)
    flags_and_unused(name, 0, 0, 0, 1, True)


def jumps():
    name = 'Jump'
    single('to the next', 0, name, 0, 255, 0, 0)
    single('to the last', 0, name, 0, 255, *offset(1), n=3)
    single('one past the last', 14, name, 0, 255, *offset(2), n=3)
    single('to itself', 0, name, 0, 255, *offset(-1), n=1)
    single('to the first', 0, name, 0, 255, *offset(-3), p=2, n=3)
    single('one before the first', 14, name, 0, 255, *offset(-4), p=2, n=3)
    single('nothing after it, back', 0, name, 0, 255, *offset(-2), p=1, n=2)
    single('nothing after it, on', 14, name, 0, 255, 0, 0, n=1)
    single('32767', 14, name, 0, 255, *offset(32767), n=3)
    single('-32768', 14, name, 0, 255, *offset(-32768), p=2, n=3)
    single('298 to the last of 300', 0, name, 0, 255, *offset(298), n=300)
    single('299 of 300', 14, name, 0, 255, *offset(299), n=300)
    single('-300 from the last of 300', 0, name, 0, 255, *offset(-300), p=299, n=300)
    single('-301 from the last of 300', 14, name, 0, 255, *offset(-301), p=299, n=300)
    single('close 0', 0, name, 0, 0, 0, 0)
    single('close the last register', 0, name, 0, 3, 0, 0)
    single('close at R', 12, name, 0, 4, 0, 0)
    single('close 254', 12, name, 0, 254, 0, 0)
    single('close 253 of 254', 0, name, 0, 253, 0, 0, registers=254)
    single('close 254 of 254', 12, name, 0, 254, 0, 0, registers=254)
    single('close 254 of 255', 0, name, 0, 254, 0, 0, registers=255)
    single('close none of 255', 0, name, 0, 255, 0, 0, registers=255)
    single('close none of 1', 0, name, 0, 255, 0, 0, registers=1)
    single('close, to itself', 0, name, 0, 0, *offset(-1), n=1)
    single('close, one past the last', 14, name, 0, 3, *offset(2), n=3)
    single('12 and 14', 12, name, 0, 4, *offset(2))
    single('11 and 12', 11, name, 1, 4, 0, 0)
    single('11 and 14', 11, name, 4, 255, *offset(2))
    flags_and_unused(name, 255, 0, 0, 2, False)
    name = 'NumericForPrep'
    single('base + 2 is the last register', 0, name, 0, 1, 0, 0)
    single('base + 2 at R', 12, name, 0, 2, 0, 0)
    single('base 252 of 255', 0, name, 0, 252, 0, 0, registers=255)
    single('base 253 of 255', 12, name, 0, 253, 0, 0, registers=255)
    single('base 255', 12, name, 0, 255, 0, 0, registers=255)
    single('to the last', 0, name, 0, 0, *offset(1), n=3)
    single('one past the last', 14, name, 0, 0, *offset(2), n=3)
    single('nothing after it, back', 0, name, 0, 0, *offset(-2), p=1, n=2)
    single('one before the first', 14, name, 0, 0, *offset(-3), p=1, n=2)
    single('-32768', 14, name, 0, 0, *offset(-32768))
    single('12 and 14', 12, name, 0, 2, *offset(2))
    flags_and_unused(name, 0, 0, 0, 2, False)
    name = 'NumericForLoop'
    single('base + 3 is the last register', 0, name, 0, 0, 0, 0)
    single('base + 3 at R', 12, name, 0, 1, 0, 0)
    single('base 251 of 255', 0, name, 0, 251, 0, 0, registers=255)
    single('base 252 of 255', 12, name, 0, 252, 0, 0, registers=255)
    single('to the last', 0, name, 0, 0, *offset(1), n=3)
    single('one past the last', 14, name, 0, 0, *offset(2), n=3)
    single('to the first', 0, name, 0, 0, *offset(-2), p=1, n=3)
    single('one before the first', 14, name, 0, 0, *offset(-3), p=1, n=3)
    single('nothing after it, back', 14, name, 0, 0, *offset(-2), p=1, n=2)
    single('-32768', 14, name, 0, 0, *offset(-32768))
    flags_and_unused(name, 0, 0, 0, 2, False)


def tests():
    for name, b in (('Test', 0), ('TestSet', 3)):
        single('the last register', 0, name, 0, 3, b, 0, n=3)
        single('register a at R', 12, name, 0, 4, b, 0, n=3)
        single('nothing two after it', 14, name, 0, 0, b, 0, n=2)
        single('nothing after it', 14, name, 0, 0, b, 0, n=1)
        single('12 and 14', 12, name, 0, 4, b, 0, n=2)
        flags_and_unused(name, 0, 0, 0, 3, name == 'Test')
    single('is_true 1', 0, 'Test', 0, 0, 1, 0, n=3)
    single('is_true 2', 11, 'Test', 0, 0, 2, 0, n=3)
    single('is_true 1', 0, 'TestSet', 0, 0, 0, 1, n=3)
    single('is_true 2', 11, 'TestSet', 0, 0, 0, 2, n=3)
    single('register b at R', 12, 'TestSet', 0, 0, 4, 0, n=3)


def sources(name, a, n):
    """The two sources of a comparison or a binary operation that has nothing else to break."""
    single('registers, the last two', 0, name, 0, a, 3, 3, n=n)
    single('left at R', 12, name, 0, a, 4, 0, n=n)
    single('right at R', 12, name, 0, a, 0, 4, n=n)
    single('left the last constant', 0, name, 1, a, 2, 3, n=n)
    single('left at K', 13, name, 1, a, 3, 0, n=n)
    single('left a constant, right at R', 12, name, 1, a, 2, 4, n=n)
    single('right the last constant', 0, name, 2, a, 3, 2, n=n)
    single('right at K', 13, name, 2, a, 0, 3, n=n)
    single('right a constant, left at R', 12, name, 2, a, 4, 2, n=n)
    single('both the last constants', 0, name, 3, a, 2, 2, n=n)
    single('both constants, left at K', 13, name, 3, a, 3, 2, n=n)
    single('both constants, right at K', 13, name, 3, a, 2, 3, n=n)
    single('left at K, right at R', 12, name, 1, a, 3, 4, n=n)
    single('left at R, right at K', 12, name, 2, a, 4, 3, n=n)
    single('13 and 14', 13, name, 3, a, 3, 3, n=1)
    single('flag 4', 11, name, 4, a, 0, 0, n=n)
    single('flag 131', 11, name, 131, a, 0, 0, n=n)
    single('nothing after it', 14, name, 0, a, 0, 0, n=1)


def binaries():
    for name in COMPARISONS:
        sources(name, 0, 3)
        single('skip_if 1', 0, name, 0, 1, 0, 0, n=3)
        single('skip_if 2', 11, name, 0, 2, 0, 0, n=3)
        single('nothing two after it', 14, name, 0, 0, 0, 0, n=2)
    for name in BINARY:
        sources(name, 3, 2)
        single('dest at R', 12, name, 0, 4, 0, 0)
        single('dest at R, constants', 12, name, 3, 4, 0, 0)


def closures():
    other = (1, [], [RETURN])
    case('Closure: the last prototype and register', (0, 0, 0), [(4, [], [(17, 0, 3, 1, 0), RETURN]), other])
    case('Closure: itself', (0, 0, 0), [(4, [], [(17, 0, 0, 0, 0), RETURN])])
    case('Closure: one past the last', (15, 0, 0), [(4, [], [(17, 0, 0, 2, 0), RETURN]), other])
    case('Closure: 31 of 32', (0, 0, 0), [(4, [], [(17, 0, 0, 31, 0), RETURN])] + [other] * 31)
    case('Closure: 32 of 32', (15, 0, 0), [(4, [], [(17, 0, 0, 32, 0), RETURN])] + [other] * 31)
    case('Closure: 255', (15, 31, 0), [other] * 31 + [(4, [], [(17, 0, 0, 255, 0), RETURN])])
    single('dest at R', 12, 'Closure', 0, 4, 0, 0)
    single('12 and 15', 12, 'Closure', 0, 4, 1, 0)
    single('14 and 15', 14, 'Closure', 0, 0, 1, 0, n=1)
    single('nothing after it', 14, 'Closure', 0, 0, 0, 0, n=1)
    flags_and_unused('Closure', 0, 0, 0, 2, True)


def upvalues():
    """GetUpValue a dest, b upvalue; SetUpValue a upvalue, b source: no flags, c unused. In prototype 1, whose descriptors no Closure names."""
    plain = (1, [], [RETURN])

    def inside(what, wants, name, flags, register, upvalue, c, p=0, n=2, registers=4, count=3):
        code = [RETURN] * n
        code[p] = instruction(name, *((register, upvalue) if name == 'GetUpValue' else (upvalue, register)), c, flags)
        case('%s: %s' % (name, what), (wants, 1, p) if wants else (0, 0, 0), [plain, (registers, [], code, 0, [(1, 255)] * count)])

    for name in ('GetUpValue', 'SetUpValue'):
        inside('the last register and upvalue', 0, name, 0, 3, 2, 0)
        inside('the first register and upvalue', 0, name, 0, 0, 0, 0)
        inside('register at R', 12, name, 0, 4, 0, 0)
        inside('register 255', 12, name, 0, 255, 0, 0)
        inside('register 254 of 255', 0, name, 0, 254, 0, 0, registers=255)
        inside('upvalue at the count', 16, name, 0, 0, 3, 0)
        inside('upvalue 255', 16, name, 0, 0, 255, 0)
        inside('upvalue 7 of 8', 0, name, 0, 0, 7, 0, count=8)
        inside('upvalue 8 of 8', 16, name, 0, 0, 8, 0, count=8)
        inside('the only upvalue', 0, name, 0, 0, 0, 0, count=1)
        inside('no upvalue', 16, name, 0, 0, 0, 0, count=0)
        inside('an upvalue that is no register', 0, name, 0, 0, 2, 0, registers=1)
        inside('a register that is no upvalue', 0, name, 0, 3, 0, 0, count=1)
        inside('nothing after it', 14, name, 0, 0, 0, 0, n=1)
        inside('last of three', 14, name, 0, 0, 0, 0, p=2, n=3)
        inside('flag 1', 11, name, 1, 0, 0, 0)
        inside('flag 2', 11, name, 2, 0, 0, 0)
        inside('flag 128', 11, name, 128, 0, 0, 0)
        inside('c is 1', 11, name, 0, 0, 0, 1)
        inside('c is 255', 11, name, 0, 0, 0, 255)
        inside('11 and 12', 11, name, 0, 4, 0, 1)
        inside('11 and 16', 11, name, 0, 0, 3, 1)
        inside('12 and 16', 12, name, 0, 4, 3, 0)
        inside('14 and 16', 14, name, 0, 0, 3, 0, n=1)
        inside('16 in the middle', 16, name, 0, 0, 3, 0, p=1, n=3)
        single('in prototype 0', 16, name, 0, 0, 0, 0)
        single('in prototype 0, not the first', 16, name, 0, 0, 0, 0, p=1, n=3)
        case('%s: upvalues are those of its own prototype' % name, (16, 2, 0), [
            plain, (1, [], [instruction(name, 0, 0), RETURN], 0, [(0, 0)]), (1, [], [instruction(name, 0, 0), RETURN])])


def captures():
    """"each descriptor in range of every prototype that names it in a Closure": a child in its parent, by an instruction of the parent's."""
    def child(*descriptors):
        return 1, [], [RETURN], 0, descriptors

    def parent(q, registers=4, count=0, p=0, n=2):
        code = [RETURN] * n
        code[p] = instruction('Closure', 0, q)
        return registers, [], code, 0, [(1, 200)] * count

    plain = (1, [], [RETURN])
    for what, wants, registers, descriptors in (
            ('register 0', 0, 4, [(0, 0)]), ('the last register', 0, 4, [(0, 3)]), ('a register at R', 16, 4, [(0, 4)]), ('register 255', 16, 4, [(0, 255)]),
            ('register 254 of 255', 0, 255, [(0, 254)]), ('register 255 of 255', 16, 255, [(0, 255)]), ('register 1 of 1', 16, 1, [(0, 1)]),
            ('one register twice', 0, 4, [(0, 3), (0, 3)]), ('the second at R', 16, 4, [(0, 3), (0, 4)]), ('the first at R', 16, 4, [(0, 4), (0, 3)]),
            ('8 registers', 0, 8, [(0, r) for r in range(8)]), ('the last of 8 at R', 16, 8, [(0, r + 1) for r in range(8)]),
            ('an upvalue of prototype 0', 16, 4, [(1, 0)]), ('a register, then an upvalue of prototype 0', 16, 4, [(0, 0), (1, 0)]),
            ('none', 0, 4, [])):
        case('Closure captures: %s' % what, (wants, 0, 0), [parent(1, registers), child(*descriptors)])
    for what, wants, count, descriptors in (
            ('upvalue 0 of 1', 0, 1, [(1, 0)]), ('upvalue 1 of 1', 16, 1, [(1, 1)]), ('upvalue 0 of none', 16, 0, [(1, 0)]), ('upvalue 7 of 8', 0, 8, [(1, 7)]),
            ('upvalue 8 of 8', 16, 8, [(1, 8)]), ('upvalue 255', 16, 8, [(1, 255)]), ('upvalue 2 of 3, register 3 of 4', 0, 3, [(1, 2), (0, 3)]),
            ('upvalue 3 of 3, register 3 of 4', 16, 3, [(1, 3), (0, 3)]), ('upvalue 2 of 3, register 4 of 4', 16, 3, [(1, 2), (0, 4)]),
            ('a number that is a register and no upvalue', 16, 2, [(1, 3)]), ('a number that is an upvalue and no register', 16, 6, [(0, 5)]),
            ('8 upvalues', 0, 8, [(1, u) for u in range(8)]), ('the last of 8 upvalues is none', 16, 7, [(1, u) for u in range(8)])):
        case('Closure captures in prototype 1: %s' % what, (wants, 1 if wants else 0, 0), [plain, parent(2, count=count), child(*descriptors)])
    case('Closure captures: its own prototype', (0, 0, 0), [plain, (4, [], [instruction('Closure', 0, 1), RETURN], 0, [(0, 3), (1, 1)])])
    case('Closure captures: its own prototype, a register at R', (16, 1, 0), [plain, (4, [], [instruction('Closure', 0, 1), RETURN], 0, [(0, 4), (1, 1)])])
    case('Closure captures: its own prototype, an upvalue at the count', (16, 1, 0), [
        plain, (4, [], [instruction('Closure', 0, 1), RETURN], 0, [(0, 3), (1, 2)])])
    case('Closure captures: by two prototypes, in range of both', (0, 0, 0), [parent(2, 4), parent(2, 3), child((0, 2))])
    case('Closure captures: by two prototypes, out of range of the second', (16, 1, 0), [parent(2, 4), parent(2, 2), child((0, 2))])
    case('Closure captures: by two prototypes, out of range of the first', (16, 0, 0), [parent(2, 2), parent(2, 4), child((0, 2))])
    case('Closure captures: an earlier prototype', (16, 2, 0), [plain, child((0, 2)), parent(1, 2)])
    case('Closure captures: an earlier prototype, in range', (0, 0, 0), [plain, child((0, 1)), parent(1, 2)])
    case('Closure captures: where nothing reaches it', (16, 0, 1), [parent(1, 2, p=1, n=3), child((0, 2))])
    case('Closure captures: the second of two', (16, 0, 1), [
        (2, [], [instruction('Closure', 0, 1), instruction('Closure', 0, 2), RETURN]), child((0, 1)), child((0, 2))])
    case('descriptors that no Closure names', (0, 0, 0), [plain, child((0, 255), (1, 255))])
    case('descriptors that only a Closure of another prototype number names', (0, 0, 0), [parent(2), child((0, 255), (1, 255)), child((0, 3))])
    case('Closure captures: 15 and 16', (15, 0, 0), [(4, [], [instruction('Closure', 0, 1), RETURN], 0, [(0, 0)])])
    case('Closure captures: 12 and 16', (12, 0, 0), [(2, [], [instruction('Closure', 2, 1), RETURN]), child((0, 2))])
    case('Closure captures: 11 and 16', (11, 0, 0), [(2, [], [instruction('Closure', 0, 1, 1), RETURN]), child((0, 2))])
    case('Closure captures: 14 and 16', (14, 0, 0), [(2, [], [instruction('Closure', 0, 1)]), child((0, 2))])
    case('16 before 10 of the next instruction', (16, 0, 0), [(2, [], [instruction('Closure', 0, 1), (39, 0, 0, 0, 0), RETURN]), child((0, 2))])
    case('10 before 16 of the next instruction', (10, 0, 0), [(2, [], [(39, 0, 0, 0, 0), instruction('Closure', 0, 1), RETURN]), child((0, 2))])


def on_prototype_0():
    """"no descriptors on prototype 0", 16 "on prototype 0 at instruction 0"."""
    plain = (1, [], [RETURN])
    bad = (39, 0, 0, 0, 0)

    def first(*code, descriptors=((0, 0),)):
        return 2, [NIL], list(code), 0, descriptors

    case('prototype 0 has a descriptor', (16, 0, 0), [first(RETURN)])
    case('prototype 0 has 8 descriptors', (16, 0, 0), [first(RETURN, descriptors=[(1, 0)] * 8)])
    case('prototype 0 has a descriptor, and one that is read', (16, 0, 0), [first(instruction('GetUpValue', 0, 0), RETURN)])
    case('prototype 0 has a descriptor, and no instructions: 14', (14, 0, 0), [first()])
    case('prototype 0 has a descriptor: 10 and 16', (10, 0, 0), [first(bad, RETURN)])
    case('prototype 0 has a descriptor: 11 and 16', (11, 0, 0), [first((12, 1, 0, 0, 0))])
    case('prototype 0 has a descriptor: 12 and 16', (12, 0, 0), [first((12, 0, 0, 3, 0))])
    case('prototype 0 has a descriptor: 13 and 16', (13, 0, 0), [first((1, 0, 0, 0, 1), RETURN)])
    case('prototype 0 has a descriptor: 14 and 16', (14, 0, 0), [first((0, 0, 0, 0, 0))])
    case('prototype 0 has a descriptor: 15 and 16', (15, 0, 0), [first((17, 0, 0, 1, 0), RETURN)])
    case('prototype 0 has a descriptor, and a bad second instruction', (16, 0, 0), [first(RETURN, bad)])
    case('prototype 0 has a descriptor, and prototype 1 a bad instruction', (16, 0, 0), [first(RETURN), (1, [], [bad])])
    case('prototype 0 has a descriptor, and prototype 1 no instructions', (16, 0, 0), [first(RETURN), (1, [], [])])
    case('prototype 0 has a descriptor, and a Closure of it elsewhere', (16, 0, 0), [first(RETURN), (1, [], [(17, 0, 0, 0, 0), RETURN])])
    case('prototype 0 has none, and a Closure of it elsewhere', (0, 0, 0), [plain, (1, [], [(17, 0, 0, 0, 0), RETURN], 0, [(0, 0)])])
    case('by the table prototype 0 has a descriptor', (16, 0, 0), [plain], [('t', 133, 1)])
    case('by the table prototype 0 has none', (0, 0, 0), [first(RETURN)], [('t', 133, 0)])
    case('by the table the child has one descriptor fewer, and it is in range', (0, 0, 0), [
        (2, [], [(17, 0, 0, 1, 0), RETURN]), (1, [], [RETURN], 0, [(0, 1), (0, 2)])], [('t', 142, 1)])
    case('by the table the child has a descriptor out of range', (16, 0, 0), [
        (2, [], [(17, 0, 0, 1, 0), RETURN]), (1, [], [RETURN], 0, [(0, 1)])], [('t', 143, 2)])


def not_carried():
    for operation in range(256):
        if operation not in OPERATIONS:
            case('operation %d is not carried' % operation, (10, 0, 0), [(4, [], [(operation, 0, 0, 0, 0), RETURN])])
    case('an operation that is not carried breaks 10 whatever else', (10, 0, 0), [(4, [], [(39, 255, 255, 255, 255)])])


def searches():
    bad = (39, 0, 0, 0, 0)
    good = (4, [NIL], [RETURN] * 8)
    case('the session of document 01', (0, 0, 0), [(1, [bytes([2]) + (7).to_bytes(8, 'big')], [(1, 0, 0, 0, 0), (12, 0, 0, 1, 0)])])
    loop = [(1, 0, 0, 0, 0), (1, 0, 1, 0, 1), (1, 0, 2, 0, 0), (18, 0, 0, 0, 0), (19, 0, 0, 255, 255), RETURN]
    case('the loop of W13', (0, 0, 0), [(4, [bytes([2]) + n.to_bytes(8, 'big') for n in (1, 3)], loop)])
    case('no prototype', (15, 0, 0), [])
    case('one prototype without instructions', (14, 0, 0), [(1, [NIL], [])])
    case('the third of four has no instructions', (14, 2, 0), [good, good, (1, [], []), good])
    case('the last has no instructions', (14, 3, 0), [good, good, good, (1, [], [])])
    case('prototype 3, instruction 7', (10, 3, 7), [good, good, good, (4, [], [RETURN] * 7 + [bad, RETURN]), good])
    case('a prototype that nothing calls', (12, 1, 0), [good, (1, [], [(0, 0, 0, 1, 0), RETURN])])
    case('an instruction that nothing reaches', (10, 0, 1), [(1, [], [RETURN, bad])])
    case('the first of two in one prototype', (14, 0, 1), [(4, [], [RETURN, (14, 0, 255, 127, 255), bad])])
    case('prototype 0 before prototype 1', (15, 0, 5), [(4, [], [RETURN] * 5 + [(17, 0, 0, 9, 0), RETURN]), (4, [], [bad])])
    case('a bad instruction before an empty prototype', (10, 0, 7), [(4, [], [RETURN] * 7 + [bad]), (1, [], [])])
    case('an empty prototype before a bad instruction', (14, 0, 0), [(1, [], []), (4, [], [bad])])
    case('registers are those of its own prototype', (12, 1, 0), [(4, [], [(0, 0, 3, 3, 0), RETURN]), (3, [], [(0, 0, 3, 0, 0), RETURN])])
    case('constants are those of its own prototype', (13, 1, 0),
         [(1, [NIL] * 3, [(1, 0, 0, 0, 2), RETURN]), (1, [NIL] * 2, [(1, 0, 0, 0, 2), RETURN])])
    case('instructions are those of its own prototype', (14, 1, 0),
         [(1, [], [(14, 0, 255, 0, 1), RETURN, RETURN]), (1, [], [(14, 0, 255, 0, 1), RETURN])])
    case('parameters do not matter', (0, 0, 0), [(4, [], [(0, 0, 3, 3, 0), RETURN], 4)])
    case('every kind of constant', (0, 0, 0),
         [(1, [NIL, b'\1\1', b'\2' + b'\xff' * 8, b'\3\x7f\xf8' + b'\0' * 6, b'\4', b'\4abc'], [(1, 0, 0, 0, 5), RETURN])])
    far = [(14, 0, 255, *offset(4094))] + [RETURN] * 4094
    case('4,096 instructions, from the first to the last and back', (0, 0, 0), [(1, [], far + [(14, 0, 255, *offset(-4096))])])
    case('4,096 instructions, the last is bad', (14, 0, 4095), [(1, [], far + [(14, 0, 255, *offset(-4097))])])


def storages():
    session = [(1, [bytes([2]) + (7).to_bytes(8, 'big')], [(1, 0, 0, 0, 0), (12, 0, 0, 1, 0)])]
    bad = [(4, [], [(39, 0, 0, 0, 0)])]
    for i, what in enumerate(('table', 'code', 'kinds', 'words', 'texts')):
        case('5: the %s is one cell short' % what, (5, 0, 0), session, lend='1' * i + '0' + '1' * (4 - i))
        case('the %s is one cell longer' % what, (0, 0, 0), session, lend='1' * i + '2' + '1' * (4 - i))
    case('5 before 6', (5, 0, 0), session, [('t', 0, 2)], lend='10111')
    case('5 before 10', (5, 0, 0), bad, lend='11110')
    case('6 before 10', (6, 0, 0), bad, [('t', 1, 0)])
    case('6 before 15', (6, 0, 0), [], [('t', 1, 1)])
    case('6: two prototypes are told of one', (6, 0, 0), session, [('t', 0, 2)])
    case('6: no prototype is told of one', (6, 0, 0), session, [('t', 0, 0)])
    case('6: 33 prototypes', (6, 0, 0), session, [('t', 0, 33)])
    case('6: 2^64 - 1 prototypes', (6, 0, 0), session, [('t', 0, 2**64 - 1)])
    case('6: no registers', (6, 0, 0), session, [('t', 1, 0)])
    case('6: 256 registers', (6, 0, 0), session, [('t', 1, 256)])
    case('255 registers', (0, 0, 0), session, [('t', 1, 255)])
    case('6: more parameters than registers', (6, 0, 0), session, [('t', 2, 2)])
    case('as many parameters as registers', (0, 0, 0), session, [('t', 2, 1)])
    case('6: the first constant is not the first', (6, 0, 0), session, [('t', 3, 1)])
    case('6: the first instruction is not the first', (6, 0, 0), session, [('t', 4, 1)])
    case('6: the closing entry has registers', (6, 0, 0), session, [('t', 5, 1)])
    case('6: the closing entry has parameters', (6, 0, 0), session, [('t', 6, 1)])
    case('one constant more', (0, 0, 0), session, [('t', 7, 2)])
    case('6: 257 constants', (6, 0, 0), session, [('t', 7, 257)])
    case('256 constants', (0, 0, 0), session, [('t', 7, 256)])
    case('no constant', (13, 0, 0), session, [('t', 7, 0)])
    case('one instruction more', (14, 0, 2), session, [('t', 8, 3)])
    case('6: 4,097 instructions', (6, 0, 0), session, [('t', 8, 4097)])
    case('4,096 instructions, those not read are Move', (14, 0, 4095), session, [('t', 8, 4096)])
    case('6: an instruction of more than five bytes', (6, 0, 0), session, [('c', 1, 2**40)])
    case('an instruction of five bytes 255', (10, 0, 1), session, [('c', 1, 2**40 - 1)])
    case('6: kind 5', (6, 0, 0), session, [('k', 0, 5)])
    case('6: kind 255', (6, 0, 0), session, [('k', 0, 255)])
    case('6: a nil that carries 7', (6, 0, 0), session, [('k', 0, 0)])
    case('6: a boolean 7', (6, 0, 0), session, [('k', 0, 1)])
    case('a boolean 1', (0, 0, 0), session, [('k', 0, 1), ('w', 0, 1)])
    case('6: a boolean 2', (6, 0, 0), session, [('k', 0, 1), ('w', 0, 2)])
    case('a string of 64 bytes', (0, 0, 0), session, [('k', 0, 4), ('w', 0, 64)])
    case('6: a string of 65 bytes', (6, 0, 0), session, [('k', 0, 4), ('w', 0, 65)])
    case('6: a string that does not start where the texts are passed up to', (6, 0, 0), session, [('k', 0, 4), ('w', 0, 65536 + 1)])
    case('what lies beyond does not matter', (0, 0, 0), session,
         [('t', 9, 77), ('c', 2, 2**64 - 1), ('k', 1, 99), ('w', 1, 99), ('x', 0, 99)])
    pair = [(1, [], [RETURN])] * 2
    case('the longest two prototypes that an image can say', (14, 0, 4095), pair, [('t', 8, 4096), ('t', 12, 4096 + 943)])
    case('6: one instruction more than an image can say', (6, 0, 0), pair, [('t', 8, 4096), ('t', 12, 4096 + 944)])


def stored_descriptors():
    """Of prototype q the number of descriptors stands at 133 + 9 * q, they behind it. No Closure names these prototypes."""
    plain, rich = (1, [], [RETURN]), (1, [], [RETURN], 0, [(0, 7), (1, 3)])
    case('descriptors of a prototype that no Closure names', (0, 0, 0), [plain, rich])
    for count, number in ((0, 0), (1, 0), (3, 0), (8, 0), (9, 6), (10, 6), (32, 6), (255, 6), (2**32, 6), (2**63, 6), (2**64 - 1, 6)):
        case('%d descriptors by the table' % count, (number, 0, 0), [plain, rich], [('t', 142, count)])
    for word, number in ((0, 0), (255, 0), (256, 0), (511, 0), (512, 6), (513, 6), (768, 6), (2**16, 6), (2**32, 6), (2**63, 6), (2**64 - 1, 6)):
        for i in (0, 1):
            case('descriptor %d is %d' % (i, word), (number, 0, 0), [plain, rich], [('t', 143 + i, word)])
        case('a spare descriptor is %d' % word, (0, 0, 0), [plain, rich], [('t', 145, word)])
        case('the last spare descriptor is %d' % word, (0, 0, 0), [plain, rich], [('t', 150, word)])
    full = (1, [], [RETURN], 0, [(1, 255)] * 8)
    case('8 descriptors, all upvalue 255', (0, 0, 0), [plain, full])
    case('6: the eighth descriptor is 512', (6, 0, 0), [plain, full], [('t', 150, 512)])
    case('the eighth descriptor is 512, and they are 7', (0, 0, 0), [plain, full], [('t', 142, 7), ('t', 150, 512)])
    case('6: 9 descriptors of the first prototype', (6, 0, 0), [plain, rich], [('t', 133, 9)])
    case('the number of descriptors of a prototype behind the last', (0, 0, 0), [plain, rich], [('t', 151, 9)])
    case('all numbers of descriptors behind the last prototype', (0, 0, 0), [plain, rich], [('t', 133 + 9 * q, 2**64 - 1) for q in range(2, 32)])
    case('6: 9 descriptors of the last of 32 prototypes', (6, 0, 0), [plain] * 32, [('t', 412, 9)])
    case('6: a descriptor of the last of 32 prototypes is 512', (6, 0, 0), [plain] * 32, [('t', 412, 8), ('t', 420, 512)])
    case('8 descriptors of the last of 32 prototypes', (0, 0, 0), [plain] * 32, [('t', 412, 8), ('t', 420, 511)])
    case('6 before 14, 9 descriptors', (6, 0, 0), [plain, (1, [], [])], [('t', 142, 9)])
    case('5 before 6, 9 descriptors', (5, 0, 0), [plain, rich], [('t', 142, 9)], lend='01111')
    pair = [plain, plain]
    long = [('t', 8, 4096), ('t', 12, 4096 + 943)]
    case('the longest two prototypes, and a descriptor, that an image can say', (14, 0, 4095), pair, [*long, ('t', 142, 1)])
    case('6: one descriptor more than an image can say', (6, 0, 0), pair, [*long, ('t', 142, 2)])


def main():
    check = checking(__doc__)
    for group in (searches, unary, loads, calls, jumps, tests, binaries, closures, upvalues, captures, on_prototype_0, not_carried, storages,
                  stored_descriptors):
        group()
    keep('checks', ''.join(LIST), ''.join(ANSWERS), check)
    print('%d cases' % len(ANSWERS))


main()
