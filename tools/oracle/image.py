"""The image, document 01's lines of hexadecimal, and how it lies in storage.

    parse(data)            the prototypes of an image's bytes, or Refused with the number and the line
    printed(prototypes)    their image, a text
    stored(prototypes)     what reading them leaves in each slice of the storage, {name: cells}; a cell that is None stays as it was lent
    lay(cells, front)      puts so much of what is stored to a slice
    read_back(slices)      the prototypes of the image that reads to a storage, or None where no image does

A constant is its bytes from the tag on. The storage is five slices:

    table          the number of prototypes, then an Entry for each and one that closes the entries; behind the room of 32 prototypes' entries, for
                   each the number of its descriptors, and these
    code           every instruction, packed
    const_kinds    every constant's tag
    const_words    every constant's payload; of a string start * 65536 + length in the texts
    texts          the strings' bytes, one behind the other"""
import re
from collections import namedtuple

from .answers import BAD_END, BAD_FRAME, BAD_LINE, TOO_MANY
from .values import BOOLEAN, INTEGER, NIL, NUMBER, STRING

MOST_BYTES, MOST_PROTOTYPES, MOST_CONSTANTS, MOST_INSTRUCTIONS, MOST_STRING_BYTES = 65536, 32, 256, 4096, 64
MOST_DESCRIPTORS = 8

Prototype = namedtuple('Prototype', 'registers parameters constants instructions descriptors', defaults=((),))
Instruction = namedtuple('Instruction', 'operation flags a b c')
# Document 02, 6/12: "00 and a parent's register, or 01 and the parent's upvalue number".
Descriptor = namedtuple('Descriptor', 'kind number')
OF_REGISTER, OF_UPVALUE = range(2)


class Refused(Exception):
    """number, line."""


# ---- lines

PROTOTYPE, CONSTANT, INSTRUCTION, DESCRIPTOR, END = 0xA0, 0xB0, 0xC0, 0xD1, 0xE0
LINE = re.compile(rb'(?:[0-9a-f]{2})+')
# How many bytes may follow a constant's tag.
PAYLOAD = {NIL: range(0, 1), BOOLEAN: range(1, 2), INTEGER: range(8, 9), NUMBER: range(8, 9), STRING: range(0, MOST_STRING_BYTES + 1)}


# Each takes a frame's bytes after its kind to the prototypes, or gives the number that refuses it.

def take_prototype(protos, rest):
    if len(rest) != 2 or rest[0] < 1 or rest[1] > rest[0]:
        return BAD_FRAME
    if len(protos) == MOST_PROTOTYPES:
        return TOO_MANY
    protos.append(Prototype(rest[0], rest[1], [], [], []))


def take_descriptor(protos, rest):
    if len(rest) != len(Descriptor._fields) or rest[0] not in (OF_REGISTER, OF_UPVALUE):
        return BAD_FRAME
    # "between a0 and its constants"
    if not protos or protos[-1].constants or protos[-1].instructions:
        return BAD_FRAME
    if len(protos[-1].descriptors) == MOST_DESCRIPTORS:
        return TOO_MANY
    protos[-1].descriptors.append(Descriptor(*rest))


def take_constant(protos, rest):
    if not rest or rest[0] not in PAYLOAD or len(rest) - 1 not in PAYLOAD[rest[0]] or rest[0] == BOOLEAN and rest[1] > 1:
        return BAD_FRAME
    if not protos or protos[-1].instructions:
        return BAD_FRAME
    if len(protos[-1].constants) == MOST_CONSTANTS:
        return TOO_MANY
    protos[-1].constants.append(rest)


def take_instruction(protos, rest):
    if len(rest) != len(Instruction._fields) or not protos:
        return BAD_FRAME
    if len(protos[-1].instructions) == MOST_INSTRUCTIONS:
        return TOO_MANY
    protos[-1].instructions.append(Instruction(*rest))


def take_end(protos, rest):
    if rest != bytes([len(protos)]):
        return BAD_FRAME


TAKE = {PROTOTYPE: take_prototype, DESCRIPTOR: take_descriptor, CONSTANT: take_constant, INSTRUCTION: take_instruction, END: take_end}


def judge(protos, line):
    """The number that refuses a line without its LF, or None: then its frame went to the prototypes."""
    if not LINE.fullmatch(line):
        return BAD_LINE
    frame = bytes.fromhex(line.decode())
    return TAKE[frame[0]](protos, frame[1:]) if frame[0] in TAKE else BAD_FRAME


def parse(data):
    if len(data) > MOST_BYTES:
        raise Refused(TOO_MANY, 0)
    *lines, rest = data.split(b'\n')
    protos = []
    for at, line in enumerate(lines):
        number = judge(protos, line)
        if number:
            raise Refused(number, at)
        if line.startswith(b'%02x' % END):
            if rest or at + 1 < len(lines):
                raise Refused(BAD_END, at + 1)
            return protos
    raise Refused(BAD_LINE if rest else BAD_END, len(lines))


def printed(protos):
    lines = []
    for registers, parameters, constants, instructions, descriptors in protos:
        lines.append(bytes([PROTOTYPE, registers, parameters]))
        lines += [bytes([DESCRIPTOR, *descriptor]) for descriptor in descriptors]
        lines += [bytes([CONSTANT]) + constant for constant in constants]
        lines += [bytes([INSTRUCTION, *instruction]) for instruction in instructions]
    lines.append(bytes([END, len(protos)]))
    return ''.join(line.hex() + '\n' for line in lines)


def payload(kind, word):
    """A constant's bytes after its tag, unless it is a string."""
    return word.to_bytes(PAYLOAD[kind][0], 'big')


# ---- the table

# The cells of the number of prototypes and of the first entry.
COUNT, ENTRIES = range(2)
# The closing entry has the totals as its first constant and instruction, so each prototype's end where the next one's begin.
Entry = namedtuple('Entry', 'registers parameters first_constant first_instruction')


def entry_at(q):
    """The cell of the table at which prototype q's entry begins."""
    return ENTRIES + len(Entry._fields) * q


def entry(table, q):
    return Entry(*table[entry_at(q):entry_at(q + 1)])


def descriptors_at(q):
    """The cell of the table that has the number of prototype q's descriptors; they stand behind it, each as kind * 256 + number."""
    return entry_at(MOST_PROTOTYPES + 1) + (1 + MOST_DESCRIPTORS) * q


def descriptor_words(table, q):
    """The words of prototype q's descriptors, or None where it has too many."""
    first = descriptors_at(q) + 1
    return table[first:first + table[first - 1]] if table[first - 1] <= MOST_DESCRIPTORS else None


# ---- instructions: from the lowest bits c, b, a (8 bits each), flags % 4 (2), operation (8), flags / 4 (6)

def packed(instruction):
    operation, flags, a, b, c = instruction
    return flags // 4 << 34 | operation << 26 | flags % 4 << 24 | a << 16 | b << 8 | c


def unpacked(word):
    return Instruction(word >> 26 & 255, word >> 34 << 2 | word >> 24 & 3, word >> 16 & 255, word >> 8 & 255, word & 255)


# ---- the storage

# The published sizes, in cells.
STORAGE = dict(table=descriptors_at(MOST_PROTOTYPES), code=5041, const_kinds=8448, const_words=8448, texts=32768)


def text_at(slices, k):
    """The bytes of the string that is constant k of the whole image."""
    start, length = divmod(slices['const_words'][k], 65536)
    return bytes(slices['texts'][start:start + length])


def lay(cells, front):
    for at, cell in enumerate(front):
        if cell is not None:
            cells[at] = cell


def stored(protos):
    table, code, kinds, words, texts = [len(protos)], [], [], [], []
    for registers, parameters, constants, instructions, _ in protos:
        table += Entry(registers, parameters, len(kinds), len(code))
        for constant in constants:
            kinds.append(constant[0])
            if constant[0] == STRING:
                words.append(len(texts) * 65536 + len(constant) - 1)
                texts += constant[1:]
            else:
                words.append(int.from_bytes(constant[1:], 'big'))
        code += [packed(instruction) for instruction in instructions]
    table += Entry(0, 0, len(kinds), len(code))
    for q, proto in enumerate(protos):
        table += [None] * (descriptors_at(q) - len(table))
        table += [len(proto.descriptors), *[kind * 256 + number for kind, number in proto.descriptors]]
    return dict(table=table, code=code, const_kinds=kinds, const_words=words, texts=texts)


def constant_at(slices, k):
    """What constant k of the whole image says, or None where its cells are no constant's."""
    kind, word = slices['const_kinds'][k], slices['const_words'][k]
    if kind == STRING:
        return bytes([kind]) + text_at(slices, k)
    if kind not in PAYLOAD or word >= 256**PAYLOAD[kind][0]:
        return None
    return bytes([kind]) + payload(kind, word)


def prototype_at(slices, q):
    """What the storage says of prototype q, or None where its cells are none's."""
    table, code = slices['table'], slices['code']
    own, after = entry(table, q), entry(table, q + 1)
    if own.registers > 255 or own.parameters > 255:
        return None
    if after.first_constant > len(slices['const_kinds']) or after.first_instruction > len(code):
        return None
    constants = [constant_at(slices, k) for k in range(own.first_constant, after.first_constant)]
    words = code[own.first_instruction:after.first_instruction]
    if None in constants or any(word >= 2**40 for word in words):
        return None
    descriptors = descriptor_words(table, q)
    if descriptors is None or any(word >= 512 for word in descriptors):
        return None
    return Prototype(own.registers, own.parameters, constants, [unpacked(word) for word in words], [Descriptor(*divmod(word, 256)) for word in descriptors])


def read_back(slices):
    """What the storage says is printed, read and stored again: an image reads to it where that leaves what is there."""
    count = slices['table'][COUNT]
    if count > MOST_PROTOTYPES:
        return None
    protos = [prototype_at(slices, q) for q in range(count)]
    if None in protos:
        return None
    try:
        parse(printed(protos).encode())
    except Refused:
        return None
    return protos if all(cell in (None, has) for name, front in stored(protos).items() for cell, has in zip(front, slices[name])) else None
