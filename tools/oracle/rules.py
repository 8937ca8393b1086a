"""The operations, and what the checker demands of them.

    instruction(name, a, b, c, flags)    the five bytes of an operation
    check(prototypes)                    number, prototype and instruction
    broken(prototypes, q, p)             the numbers of the rules that instruction p of prototype q breaks"""
from .answers import DONE, NO_CONSTANT, NO_PROTOTYPE, NO_REGISTER, NO_TARGET, NO_UPVALUE, NOT_CARRIED, STRAY_BYTE
from .image import OF_REGISTER, Instruction

OPERATIONS = {
    0: 'Move', 1: 'LoadConstant', 2: 'LoadBool', 3: 'LoadNil', 10: 'Call', 12: 'Return', 14: 'Jump', 15: 'Test', 16: 'TestSet',
    17: 'Closure', 18: 'NumericForPrep', 19: 'NumericForLoop', 24: 'GetUpValue', 25: 'SetUpValue', 27: 'Eq', 28: 'Less', 29: 'LessEq', 30: 'Not',
    31: 'Minus', 32: 'BitNot', 33: 'Add', 34: 'Sub', 35: 'Mul', 36: 'Div', 37: 'IDiv', 38: 'Mod', 40: 'BitAnd', 41: 'BitOr', 42: 'BitXor', 43: 'ShiftLeft',
    44: 'ShiftRight',
}
NUMBER_OF = {name: number for number, name in OPERATIONS.items()}
UNARY = ('Move', 'Not', 'Minus', 'BitNot')
COMPARISONS = ('Eq', 'Less', 'LessEq')
BINARY = ('Add', 'Sub', 'Mul', 'Div', 'IDiv', 'Mod', 'BitAnd', 'BitOr', 'BitXor', 'ShiftLeft', 'ShiftRight')

# What the bytes a, b, c of an operation are: r a register, s a register or by its flag a constant, ? yes or no, kk a constant's index, oo an
# offset, q a prototype, u an upvalue, - unused. What stands under . has a rule of its own, in `ends` or in `not_carried`.
OPERANDS = {
    **dict.fromkeys(UNARY, 'rr-'), **dict.fromkeys(COMPARISONS, '?ss'), **dict.fromkeys(BINARY, 'rss'),
    'LoadConstant': 'rkk', 'LoadBool': 'r??', 'LoadNil': '..-', 'Call': '...', 'Return': '..-', 'Jump': '.oo', 'Test': 'r?-', 'TestSet': 'rr?',
    'Closure': 'rq-', 'NumericForPrep': '.oo', 'NumericForLoop': '.oo', 'GetUpValue': 'ru-', 'SetUpValue': 'ur-',
}
FLAG = {'b': 1, 'c': 2}
# A Jump's close register that is none.
CLOSES_NONE = 255


def instruction(name, a=0, b=0, c=0, flags=0):
    return Instruction(NUMBER_OF[name], flags, a, b, c)


def index(b, c):
    return b * 256 + c


def target(p, b, c):
    """Where an offset leads from instruction p."""
    return p + 1 + (index(b, c) + 32768) % 65536 - 32768


def not_carried(name, b, c):
    """A count of 255."""
    return name == 'Call' and 255 in (b, c) or name == 'Return' and b == 255


def ends(name, a, b, c):
    """Where ranges of registers end: the register after their last."""
    return {
        'LoadNil': [a + b], 'Return': [a + b], 'Call': [a + 1 + b, a + c], 'NumericForPrep': [a + 3], 'NumericForLoop': [a + 4],
        'Jump': [a + 1] if a != CLOSES_NONE else [],
    }.get(name, [])


def next_places(name, p, b, c):
    if name == 'Return':
        return []
    if name in ('Jump', 'NumericForPrep'):
        return [target(p, b, c)]
    if name == 'NumericForLoop':
        return [p + 1, target(p, b, c)]
    if name in ('Test', 'TestSet', *COMPARISONS):
        return [p + 1, p + 2]
    if name == 'LoadBool' and c:
        return [p + 2]
    return [p + 1]


def in_range(descriptor, parent):
    """Whether it names a register or an upvalue that the prototype has in which its Closure stands."""
    kind, number = descriptor
    return number < (parent.registers if kind == OF_REGISTER else len(parent.descriptors))


def broken(protos, q, p):
    registers, _, constants, instructions, descriptors = protos[q]
    operation, flags, a, b, c = instructions[p]
    if operation not in OPERATIONS:
        return {NOT_CARRIED}
    name = OPERATIONS[operation]
    operands = list(zip(OPERANDS[name], 'abc', (a, b, c)))

    def bytes_of(kind):
        return [byte for what, _, byte in operands if what == kind]

    def sources(constant):
        """Those that are constants, or those that are registers."""
        return [byte for what, which, byte in operands if what == 's' and bool(flags & FLAG[which]) == constant]

    indices = sources(True) + ([index(b, c)] if bytes_of('k') else [])
    # "each descriptor in range of every prototype that names it in a Closure"
    captured = [descriptor for byte in bytes_of('q') for proto in protos[byte:byte + 1] for descriptor in proto.descriptors]
    rules = {
        NOT_CARRIED: not_carried(name, b, c),
        STRAY_BYTE: flags > (3 if bytes_of('s') else 0) or any(bytes_of('-')) or any(byte > 1 for byte in bytes_of('?')),
        NO_REGISTER: any(r >= registers for r in bytes_of('r') + sources(False)) or any(end > registers for end in ends(name, a, b, c)),
        NO_CONSTANT: any(k >= len(constants) for k in indices),
        NO_TARGET: any(not 0 <= place < len(instructions) for place in next_places(name, p, b, c)),
        NO_PROTOTYPE: any(byte >= len(protos) for byte in bytes_of('q')),
        # "on prototype 0 at instruction 0"
        NO_UPVALUE: any(u >= len(descriptors) for u in bytes_of('u')) or not all(in_range(descriptor, protos[q]) for descriptor in captured)
                    or q == p == 0 and descriptors,
    }
    return {number for number, breaks in rules.items() if breaks}


def check(protos):
    if not protos:
        return NO_PROTOTYPE, 0, 0
    for q, proto in enumerate(protos):
        if not proto.instructions:
            return NO_TARGET, q, 0
        for p in range(len(proto.instructions)):
            numbers = broken(protos, q, p)
            if numbers:
                return min(numbers), q, p
    return DONE, 0, 0
