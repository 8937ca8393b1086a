#!/usr/bin/env python3
"""Translates a Lua 5.3 program to an image of the deletion machine, by way of what luac5.3 makes of it.

    python3 tools/luac/luac_image.py FILE.lua      writes the image to standard output

Every instruction becomes one instruction, at the same place, with the same operands. What the machine doesn't carry is refused, with the
operation and the source line. README.md says what that is.

    translate(path)      the Program of a source file: its prototypes in the image's order, and where each instruction comes from
    compiled(source)     the main Function of a source's bytes, as luac5.3 makes it
    numbered(main)       it and the functions within it, in the image's order"""
import os
import struct
import subprocess
import sys
import tempfile

sys.dont_write_bytecode = True
sys.path.insert(1, os.path.join(os.path.dirname(os.path.realpath(__file__)), '..'))
from oracle.image import (MOST_BYTES, MOST_CONSTANTS, MOST_DESCRIPTORS, MOST_INSTRUCTIONS, MOST_PROTOTYPES, MOST_STRING_BYTES, OF_REGISTER, OF_UPVALUE,
                          Descriptor, Prototype, printed)
from oracle.rules import CLOSES_NONE, instruction
from oracle.values import BOOLEAN, INTEGER, NIL, NUMBER, STRING

NAMES = ('MOVE LOADK LOADKX LOADBOOL LOADNIL GETUPVAL GETTABUP GETTABLE SETTABUP SETUPVAL SETTABLE NEWTABLE SELF ADD SUB MUL MOD POW DIV IDIV '
         'BAND BOR BXOR SHL SHR UNM BNOT NOT LEN CONCAT JMP EQ LT LE TEST TESTSET CALL TAILCALL RETURN FORLOOP FORPREP TFORCALL TFORLOOP '
         'SETLIST CLOSURE VARARG EXTRAARG').split()

# Lua's name of an operator, and document 01's of its operation.
UNARY = {'MOVE': 'Move', 'NOT': 'Not', 'UNM': 'Minus', 'BNOT': 'BitNot'}
BINARY = {
    'ADD': 'Add', 'SUB': 'Sub', 'MUL': 'Mul', 'DIV': 'Div', 'IDIV': 'IDiv', 'MOD': 'Mod', 'BAND': 'BitAnd', 'BOR': 'BitOr', 'BXOR': 'BitXor',
    'SHL': 'ShiftLeft', 'SHR': 'ShiftRight',
}
COMPARISONS = {'EQ': 'Eq', 'LT': 'Less', 'LE': 'LessEq'}

# luac5.3 itself goes no deeper.
MOST_NESTED = 200


class Refused(Exception):
    pass


# ---- luac's binary chunk

class Chunk:
    """Reads a chunk from front to back."""

    def __init__(self, data):
        self.data, self.at = data, 0

    def take(self, n):
        part = self.data[self.at:self.at + n]
        if len(part) != n:
            raise Refused("luac5.3's chunk ends early")
        self.at += n
        return part

    def byte(self):
        return self.take(1)[0]

    def int(self):
        return struct.unpack('<i', self.take(4))[0]

    def list(self, element):
        return [element() for _ in range(self.int())]

    def string(self):
        """Its bytes; none at all, which only a stripped chunk has, are b''."""
        size = self.byte()
        if size == 255:
            size = struct.unpack('<Q', self.take(8))[0]
        return self.take(size - 1) if size else b''

    def header(self):
        """Lua 5.3, with the sizes of a 64-bit machine, low byte first."""
        wanted = b'\x1bLua\x53\0\x19\x93\r\n\x1a\n\x04\x08\x04\x08\x08' + struct.pack('<qd', 0x5678, 370.5)
        if self.take(len(wanted)) != wanted:
            raise Refused("luac5.3's chunk isn't one of Lua 5.3 on a machine of 64 bits")
        self.byte()

    def constant(self):
        """The constant's bytes in the image: tag and payload."""
        kind = self.byte()
        if kind == 0:
            return bytes([NIL])
        if kind == 1:
            return bytes([BOOLEAN, self.byte()])
        if kind == 3:
            return bytes([NUMBER]) + self.take(8)[::-1]
        if kind == 0x13:
            return bytes([INTEGER]) + self.take(8)[::-1]
        if kind in (4, 0x14):
            return bytes([STRING]) + self.string()
        raise Refused("luac5.3's chunk has a constant of type %d" % kind)


class Function:
    """A function of the chunk. `lines` has the source line of each instruction; an upvalue is (whether it is a register of the function around it,
    the number of that register or of that function's upvalue), a local is (name, the first instruction of its scope, the first after it)."""

    def __init__(self, chunk, depth=0):
        if depth > MOST_NESTED:
            raise Refused("luac5.3's chunk has functions nested more than %d deep" % MOST_NESTED)
        chunk.string()
        self.line = chunk.int()
        chunk.int()
        self.parameters = chunk.byte()
        chunk.byte()
        self.registers = chunk.byte()
        self.code = chunk.list(lambda: struct.unpack('<I', chunk.take(4))[0])
        self.constants = chunk.list(chunk.constant)
        self.upvalues = chunk.list(lambda: tuple(chunk.take(2)))
        self.functions = chunk.list(lambda: Function(chunk, depth + 1))
        self.lines = chunk.list(chunk.int)
        self.locals = chunk.list(lambda: (chunk.string(), chunk.int(), chunk.int()))
        self.upvalue_names = chunk.list(chunk.string)
        # the names of upvalues by the instructions that have taken the place of reading them (lua2image's upvalues.py)
        self.put_in = {}
        self.demand_whole()

    def in_scope(self, p):
        """The numbers of the locals in scope at instruction p: they own the registers from 0 on, in this order."""
        return [k for k, (_, start, end) in enumerate(self.locals) if start <= p < end]

    def demand_whole(self):
        """Refuses a chunk that isn't luac's: what follows counts on what instructions name to be there, and on the lines and names."""
        if not self.code or len(self.lines) != len(self.code) or len(self.upvalue_names) != len(self.upvalues):
            raise Refused("luac5.3's chunk lacks instructions, their lines or names")
        if not all(0 <= start <= end <= len(self.code) for _, start, end in self.locals):
            raise Refused("luac5.3's chunk has a local whose scope isn't there")
        for inner in self.functions:
            if any(in_register > 1 or number >= (self.registers if in_register else len(self.upvalues)) for in_register, number in inner.upvalues):
                raise Refused("luac5.3's chunk has a function over a variable that isn't there")
        for p, word in enumerate(self.code):
            if word & 63 >= len(NAMES):
                raise Refused("luac5.3's chunk has an unknown operation, %d" % (word & 63))
            name = operation(word)
            named = (
                (upvalues_used(word), self.upvalues), (constants_used(word), self.constants),
                ([wide(word)] if name == 'CLOSURE' else [], self.functions), ([p + 1 + jump(word)] if name in JUMPS else [], self.code),
            )
            if any(not 0 <= number < len(those) for numbers, those in named for number in numbers):
                raise Refused("luac5.3's chunk has a %s, instruction %d, that names what isn't there" % (name, p))


# ---- luac's instructions

# Those that have an offset.
JUMPS = ('JMP', 'FORLOOP', 'FORPREP', 'TFORLOOP')


def operation(word):
    return NAMES[word & 63]


def decoded(word):
    """The operation's name, and its operands a, b, c."""
    return operation(word), word >> 6 & 255, word >> 23, word >> 14 & 511


def wide(word):
    """The operand that stands where b and c do."""
    return word >> 14


def jump(word):
    """The offset of a jump, from the instruction after it."""
    return wide(word) - 131071


def encoded(name, a, wide_operand):
    """An instruction with a wide operand."""
    return NAMES.index(name) | a << 6 | wide_operand << 14


def constants_used(word):
    """The numbers of the constants among an instruction's operands."""
    name, _, b, c = decoded(word)
    if name == 'LOADK':
        return [wide(word)]
    if name in BINARY or name in COMPARISONS or name in ('POW', 'SETTABUP', 'SETTABLE'):
        operands = [b, c]
    else:
        operands = [c] if name in ('GETTABUP', 'GETTABLE', 'SELF') else []
    return [operand - 256 for operand in operands if operand >= 256]


def upvalues_used(word):
    """The numbers of the upvalues among an instruction's operands."""
    name, a, b, _ = decoded(word)
    if name in ('GETUPVAL', 'SETUPVAL', 'GETTABUP'):
        return [b]
    return [a] if name == 'SETTABUP' else []


def numbered(main):
    """The functions in the image's order, each before those within it; `number` is a function's place there."""
    functions, waiting = [], [main]
    while waiting:
        function = waiting.pop()
        function.number = len(functions)
        functions.append(function)
        waiting += reversed(function.functions)
    return functions


# ---- luac5.3 itself

def chunk_of(source):
    """What luac5.3 writes for a source, which it is given on its standard input."""
    with tempfile.TemporaryDirectory() as folder:
        out = os.path.join(folder, 'out')
        done = subprocess.run(['luac5.3', '-o', out, '-'], input=source, stdout=subprocess.DEVNULL, stderr=subprocess.PIPE)
        if done.returncode < 0:
            raise Refused('luac5.3 was ended by signal %d' % -done.returncode)
        if done.returncode:
            complaint = done.stderr.decode('utf-8', 'replace').strip()
            raise Refused(complaint or 'luac5.3 ended with status %d and said nothing' % done.returncode)
        try:
            with open(out, 'rb') as file:
                return file.read()
        except FileNotFoundError:
            raise Refused('luac5.3 wrote no chunk')


def compiled(source):
    chunk = Chunk(chunk_of(source))
    chunk.header()
    main = Function(chunk)
    if chunk.at < len(chunk.data):
        raise Refused("luac5.3's chunk goes on after its end")
    return main


# ---- the image

class Program:
    """functions: the chunk's functions in the image's order, each before those within it. prototypes: what the image has of them."""

    def __init__(self, main):
        self.functions = numbered(main)
        if len(self.functions) > MOST_PROTOTYPES:
            raise Refused('%d functions; an image has at most %d' % (len(self.functions), MOST_PROTOTYPES))
        self.prototypes = [self.prototype(function) for function in self.functions]
        # What is no register of the main function is its upvalue, _ENV; an instruction that asks it for a global is refused by itself.
        for function in main.functions:
            if not all(in_register for in_register, _ in function.upvalues):
                raise Refused('line %d: a function that uses _ENV' % function.line)
        self.image = printed(self.prototypes)
        if len(self.image) > MOST_BYTES:
            raise Refused('the image has %d bytes; at most %d are read' % (len(self.image), MOST_BYTES))

    def prototype(self, function):
        if len(function.constants) > MOST_CONSTANTS:
            raise Refused('line %d: %d constants; a function has at most %d' % (function.line, len(function.constants), MOST_CONSTANTS))
        if len(function.code) > MOST_INSTRUCTIONS:
            raise Refused('line %d: %d instructions; a function has at most %d' % (function.line, len(function.code), MOST_INSTRUCTIONS))
        for constant in function.constants:
            if constant[0] == STRING and len(constant) - 1 > MOST_STRING_BYTES:
                raise Refused('line %d: a string of %d bytes; at most %d are carried' % (function.line, len(constant) - 1, MOST_STRING_BYTES))
        code = []
        for word, line in zip(function.code, function.lines):
            try:
                code.append(translated(function, word))
            except Refused as refusal:
                raise Refused('line %d: %s %s' % (line, operation(word), refusal))
        if function.number and len(function.upvalues) > MOST_DESCRIPTORS:
            raise Refused('line %d: a function that uses %d variables from outside; at most %d are carried' % (
                function.line, len(function.upvalues), MOST_DESCRIPTORS))
        return Prototype(function.registers, function.parameters, function.constants, code, descriptors(function))


def descriptors(function):
    """Of its upvalues; the main function's one is _ENV, which is no variable of the program."""
    return [Descriptor(OF_REGISTER if in_register else OF_UPVALUE, number) for in_register, number in function.upvalues] if function.number else []


def offset(word):
    n = jump(word)
    if not -32768 <= n < 32768:
        raise Refused('jumps too far')
    return n >> 8 & 255, n & 255


def source(rk):
    """An operand that is a register or a constant: whether it is one, and its number."""
    return rk >> 8, rk & 255


def counted(n, what):
    """Lua's counts are one more than the number; 0 is an open one."""
    if n == 0:
        raise Refused('with an open number of ' + what)
    if n > 255:
        raise Refused('with more than 254 ' + what)
    return n - 1


def translated(function, word):
    name, a, b, c = decoded(word)
    if name in UNARY:
        return instruction(UNARY[name], a, b)
    if name in BINARY or name in COMPARISONS:
        left, b = source(b)
        right, c = source(c)
        flags = left + 2 * right
        if name in BINARY:
            return instruction(BINARY[name], a, b, c, flags)
        return instruction(COMPARISONS[name], 1 - a, b, c, flags)
    if name == 'LOADK':
        index = wide(word)
        return instruction('LoadConstant', a, index >> 8, index & 255)
    if name == 'LOADBOOL':
        return instruction('LoadBool', a, int(b != 0), int(c != 0))
    if name == 'LOADNIL':
        return instruction('LoadNil', a, b + 1)
    if name == 'CALL':
        return instruction('Call', a, counted(b, 'arguments'), counted(c, 'results'))
    if name == 'RETURN':
        return instruction('Return', a, counted(b, 'results'))
    if name == 'JMP':
        # Lua's register is one more, and 0 is none.
        return instruction('Jump', a - 1 if a else CLOSES_NONE, *offset(word))
    if name == 'TEST':
        return instruction('Test', a, int(c == 0))
    if name == 'TESTSET':
        return instruction('TestSet', a, b, int(c == 0))
    if name == 'CLOSURE':
        return instruction('Closure', a, function.functions[wide(word)].number)
    if name in ('GETUPVAL', 'SETUPVAL') and function.number:
        return instruction('GetUpValue', a, b) if name == 'GETUPVAL' else instruction('SetUpValue', b, a)
    if name == 'FORPREP':
        return instruction('NumericForPrep', a, *offset(word))
    if name == 'FORLOOP':
        return instruction('NumericForLoop', a, *offset(word))
    raise Refused('is not carried')


def translate(path):
    with open(path, 'rb') as file:
        return Program(compiled(file.read()))


if __name__ == '__main__':
    if len(sys.argv) != 2:
        sys.exit(__doc__)
    try:
        sys.stdout.write(translate(sys.argv[1]).image)
    except Refused as refusal:
        sys.exit('%s: refused: %s' % (sys.argv[1], refusal))
