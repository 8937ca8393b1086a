"""An image's instructions in words.

    listed(prototypes, functions)                   the text; functions: those of the Lua source, in the image's order, or None where there is no source
    instruction_line(prototypes, q, p, functions)   the line of instruction p of prototype q

The prototypes are those of tools/oracle: a constant is its bytes from the tag on, an instruction its five bytes."""
from oracle.image import OF_REGISTER
from oracle.rules import BINARY, CLOSES_NONE, COMPARISONS, OPERATIONS, broken, index, target
from oracle.values import BOOLEAN, INTEGER, NIL, NUMBER, double, signed

SIGNS = {
    'Eq': '==', 'Less': '<', 'LessEq': '<=', 'Not': 'not ', 'Minus': '-', 'BitNot': '~', 'Add': '+', 'Sub': '-', 'Mul': '*', 'Div': '/',
    'IDiv': '//', 'Mod': '%', 'BitAnd': '&', 'BitOr': '|', 'BitXor': '~', 'ShiftLeft': '<<', 'ShiftRight': '>>',
}


def value(constant):
    """A constant as Lua writes it."""
    tag, word = constant[0], int.from_bytes(constant[1:], 'big')
    if tag == NIL:
        return 'nil'
    if tag == BOOLEAN:
        return 'true' if word else 'false'
    if tag == INTEGER:
        return str(signed(word))
    if tag == NUMBER:
        return repr(double(word))
    return '"%s"' % ''.join(character if character.isprintable() and character not in '"\\' else escaped(character)
                            for character in constant[1:].decode('utf-8', 'surrogateescape'))


def escaped(character):
    """Its bytes, each by its number; a byte that is no UTF-8 too."""
    return ''.join('\\%03d' % byte for byte in character.encode('utf-8', 'surrogateescape'))


def registers(first, count):
    """r3, or r3..r5; nothing for none."""
    if count < 2:
        return 'r%d' % first if count else ''
    return 'r%d..r%d' % (first, first + count - 1)


def in_words(five, q, p, constants):
    """What instruction p of prototype q does; it breaks no rule."""
    operation, flags, a, b, c = five
    name = OPERATIONS[operation]
    left = value(constants[b]) if flags & 1 else 'r%d' % b
    right = value(constants[c]) if flags & 2 else 'r%d' % c
    skip = 'go to %d:%d' % (q, p + 2)
    jump = 'go to %d:%d' % (q, target(p, b, c))

    def when(yes, condition):
        return '%s %s %s' % ('if' if yes else 'unless', condition, skip)

    if name in COMPARISONS:
        return when(a, '%s %s %s' % (left, SIGNS[name], right))
    if name in BINARY:
        return 'r%d = %s %s %s' % (a, left, SIGNS[name], right)
    if name in ('Not', 'Minus', 'BitNot'):
        return 'r%d = %sr%d' % (a, SIGNS[name], b)
    if name == 'Move':
        return 'r%d = r%d' % (a, b)
    if name == 'LoadConstant':
        return 'r%d = %s' % (a, value(constants[index(b, c)]))
    if name == 'LoadBool':
        return 'r%d = %s' % (a, 'true' if b else 'false') + (', ' + skip if c else '')
    if name == 'LoadNil':
        return '%s = nil' % registers(a, b) if b else 'nothing'
    if name == 'Call':
        return (registers(a, c) + ' = ' if c else '') + 'r%d(%s)' % (a, registers(a + 1, b))
    if name == 'Return':
        return registers(a, b) or 'no value'
    if name == 'Jump':
        return jump if a == CLOSES_NONE else 'close from r%d on, %s' % (a, jump)
    if name == 'Test':
        return when(b, 'r%d' % a)
    if name == 'TestSet':
        return when(c, 'r%d' % b) + ', else r%d = r%d' % (a, b)
    if name == 'Closure':
        return 'r%d = prototype %d' % (a, b)
    if name == 'GetUpValue':
        return 'r%d = u%d' % (a, b)
    if name == 'SetUpValue':
        return 'u%d = r%d' % (a, b)
    if name == 'NumericForPrep':
        return 'r%d = r%d - r%d, %s' % (a, a, a + 2, jump)
    return 'r%d = r%d + r%d, unless past r%d: r%d = r%d, %s' % (a, a, a + 2, a + 1, a + 3, a, jump)


def instruction_line(prototypes, q, p, functions=None):
    five = prototypes[q].instructions[p]
    numbers = broken(prototypes, q, p)
    name = OPERATIONS.get(five.operation, 'operation %d' % five.operation)
    if numbers:
        words = 'bytes %s, refused with %d' % (bytes(five).hex(' '), min(numbers))
    else:
        words = in_words(five, q, p, prototypes[q].constants)
    line = '' if functions is None else 'line %-5d' % functions[q].lines[p]
    return '%-8s%s %-15s %s' % ('%d:%d' % (q, p), line, name, words)


def upvalues(prototype):
    """What each of its upvalues is of the function that makes it."""
    named = ['u%d = %s%d' % (u, 'r' if kind == OF_REGISTER else 'u', number) for u, (kind, number) in enumerate(prototype.descriptors)]
    return ', upvalues ' + ', '.join(named) if named else ''


def listed(prototypes, functions=None):
    lines = []
    for q, prototype in enumerate(prototypes):
        begins = '' if functions is None else ', the main program' if q == 0 else ', the function at line %d' % functions[q].line
        lines.append('prototype %d%s: registers %d, parameters %d%s' % (
            q, begins, prototype.registers, prototype.parameters, upvalues(prototype)))
        lines += [instruction_line(prototypes, q, p, functions) for p in range(len(prototype.instructions))]
    return ''.join(line + '\n' for line in lines)
