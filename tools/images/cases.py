#!/usr/bin/env python3
"""Makes the cases of crates/images and what must be answered, by tools/oracle, which shares nothing with the proved reader.

    python3 tools/images/cases.py              writes crates/images/stdin and crates/images/stdout
    python3 tools/images/cases.py --check      writes nothing, and fails where one of the two is stale

Running it again writes the same bytes. The list's form stands at the head of crates/images/src/main.rt."""
import os
import random
import sys

sys.dont_write_bytecode = True
sys.path.insert(1, os.path.join(os.path.dirname(os.path.realpath(__file__)), '..'))
from oracle.image import STORAGE, stored
from oracle.kept import checking, keep
from oracle.machine import OF_BYTES, Machine

ROOM = 65600  # the output that is lent
FILL = 0x5A  # what lies in every byte at first


# ---- answers

FACTOR, MODULUS = 65599, 0xFFFFFFFB


def digest(front, fill, count):
    """Of all numbers of `front`, then of `fill` so often that they are `count`: h becomes h * FACTOR + number with each of them."""
    h = 0
    for number in front:
        h = (h * FACTOR + number) % MODULUS
    # The rest in one step, by the sum of a geometric series: it is nearly all of the slice.
    power = pow(FACTOR, count - len(front), MODULUS)
    series = (power - 1) * pow(FACTOR - 1, -1, MODULUS)
    return (h * power + fill * series) % MODULUS


def digest_of_slice(name, front):
    """Of a slice that has `front` and a cell more than its size; a cell of 64 bits is two numbers. What is None in `front` is as it was lent."""
    cells, half_filled = STORAGE[name] + 1, int.from_bytes([FILL] * 4, 'big')
    if name in OF_BYTES:
        return digest(front, FILL, cells)
    halves = [half for cell in front for half in ((half_filled, half_filled) if cell is None else divmod(cell, 2**32))]
    return digest(halves, half_filled, 2 * cells)


def answered(image, storage):
    """The reader's number and place, what it leaves in each slice, and what the writer then answers and leaves."""
    m = Machine(storage=FILL, beyond=1)
    m.lend(storage)
    number, place = m.read(image)
    fronts = stored(m.protos()) if number == 0 else {}
    out = [number, place, *[digest_of_slice(name, fronts.get(name, [])) for name in STORAGE]]
    for room in (max(len(image) - 1, 0), len(image)):
        number, text = m.write(room)
        out += [number, len(text), digest(text.encode(), FILL, ROOM)]
    return out


# ---- the cases

CASES = []
SAID = {'\n': ';', '\r': '!', '\0': '%', '\xff': '~'}


def case(name, *pieces, storage='11111', wants=None, length=None):
    """A piece is a text or (count, text). wants: the number and the place, where document 01 says them outright."""
    pieces = [p if isinstance(p, tuple) else (1, p) for p in pieces if p]
    image = b''.join(n * text.encode('latin-1') for n, text in pieces)
    assert length in (None, len(image)), (name, len(image))
    answer = answered(image, storage)
    assert wants in (None, tuple(answer[:2])), (name, answer[:2], wants)
    CASES.append((name, pieces, storage, answer))


A0, C0, D1, NIL = 'a00100\n', 'c00000000000\n', 'd10000\n', 'b000\n'
SESSION = 'a00100\nb0020000000000000007\nc00100000000\nc00c00000100\ne001\n'


def lines(*texts):
    return ''.join(t + '\n' for t in texts)


def end(count):
    return 'e0%02x\n' % count


def string(n, byte='61'):
    return 'b004' + byte * n + '\n'


def accepted():
    case('the session', SESSION, wants=(0, 1))
    case('no prototype', 'e000\n', wants=(0, 0))
    case('a prototype without instructions', A0, end(1), wants=(0, 1))
    case('constants only, then the next prototype', A0, NIL, A0, C0, end(2), wants=(0, 2))
    case('instructions without constants', A0, C0, C0, end(1), wants=(0, 1))
    case('a prototype after instructions has constants again', A0, C0, 'a00201\n', NIL, C0, end(2), wants=(0, 2))
    case('registers 255, parameters 255', 'a0ffff\n', end(1), wants=(0, 1))
    case('parameters equal to the registers', 'a00101\n', end(1), wants=(0, 1))
    case('every kind of constant', A0, NIL, 'b00100\n', 'b00101\n', 'b002ffffffffffffffff\n', 'b0028000000000000000\n',
         'b0037ff8000000000001\n', 'b0038000000000000000\n', 'b00400ff0a\n', string(0), 'b004616263\n', end(1), wants=(0, 1))
    case('a string after a string starts where it ends', A0, string(3), string(0), string(5, '62'), A0, string(2, '63'), end(2),
         wants=(0, 2))
    case('operation 255 and all bytes 255', A0, 'c0ffffffffff\n', end(1), wants=(0, 1))
    case('every flag bit of an instruction', A0, *['c02a%02x010203\n' % (1 << i) for i in range(8)], end(1), wants=(0, 1))
    case('each byte of an instruction by itself', A0, *['c0' + '00' * i + 'ff' + '00' * (4 - i) + '\n' for i in range(5)], end(1),
         wants=(0, 1))


def empty_and_end():
    case('the empty input', wants=(4, 0))
    case('no e0 after good lines', A0, C0, wants=(4, 2))
    case('an LF alone', '\n', wants=(1, 0))
    case('a byte after e0', SESSION, 'a', wants=(4, 5))
    case('an LF after e0', SESSION, '\n', wants=(4, 5))
    case('a zero byte after e0', SESSION, '\0', wants=(4, 5))
    case('bad hex after e0', SESSION, 'xyz\n', wants=(4, 5))
    case('a line that lacks its LF after e0', SESSION, 'e001', wants=(4, 5))
    case('a second e0', SESSION, end(1), wants=(4, 5))
    case('the image twice', SESSION, SESSION, wants=(4, 5))
    case('a byte after e000', 'e000\n', ' ', wants=(4, 1))
    case('e0 lacks its LF', SESSION[:-1], wants=(1, 4))
    case('e000 lacks its LF', 'e000', wants=(1, 0))
    case('the last line lacks its LF and is no e0', A0, C0[:-1], wants=(1, 1))
    case('the last line lacks its LF and has an unknown kind', A0, 'd0', wants=(1, 1))
    case('the last line lacks its LF and is too many', (32, A0), A0[:-1], wants=(1, 32))
    case('one byte', 'a', wants=(1, 0))
    case('one zero byte', '\0', wants=(1, 0))


def hexadecimal():
    for name, bad in (('an uppercase digit', 'A00100'), ('an uppercase digit in the second place', 'aC0100'), ('a G', 'ag0100'),
                      ('the byte below 0', '/00100'), ('the byte above 9', ':00100'), ('the byte below a', '`00100'),
                      ('the byte above f', 'g00100'), ('a blank', 'a0 100'), ('a blank in front', ' a00100'),
                      ('a blank behind', 'a00100 '), ('odd digits', 'a0010'), ('one digit', 'a'), ('three digits', 'a00'),
                      ('CR LF', 'a00100\r'), ('CR alone', '\r'), ('a zero byte', 'a0\x000100'), ('the byte 255', 'a0\xff0100'),
                      ('an empty line', '')):
        case(name + ' in line 0', bad + '\n', wants=(1, 0))
        case(name + ' in line 2', A0, NIL, bad + '\n', C0, end(1), wants=(1, 2))
        case(name + ' instead of e0', A0, bad + '\n', wants=(1, 1))
    case('CR LF everywhere', SESSION.replace('\n', '\r\n'), wants=(1, 0))
    case('an uppercase digit in the last pair', A0, 'b002000000000000000F\n', end(1), wants=(1, 1))
    case('odd digits in the last line', A0, 'e0010\n', wants=(1, 1))
    case('bad hex comes before an unknown kind', 'd0x0\n', wants=(1, 0))


def fields():
    for kind in ('a0', 'b0', 'c0', 'e0', '00', 'd0', 'd054', 'd1', 'f0', 'ff', '0a', '0b'):
        case(kind + ' alone', kind + '\n', wants=(2, 0))
        case(kind + ' alone in a prototype', A0, kind + '\n', wants=(2, 1))
    case('a0 with one byte', 'a001\n', wants=(2, 0))
    case('a0 with three bytes', 'a0010000\n', wants=(2, 0))
    case('registers 0', 'a00000\n', wants=(2, 0))
    case('registers 0, parameters 1', 'a00001\n', wants=(2, 0))
    case('parameters above the registers', 'a00102\n', wants=(2, 0))
    case('parameters 255, registers 254', 'a0feff\n', wants=(2, 0))
    for name, bad in (('nil with a byte', 'b00000'), ('boolean without a byte', 'b001'), ('boolean with two bytes', 'b0010100'),
                      ('boolean 2', 'b00102'), ('boolean 255', 'b001ff'), ('integer without bytes', 'b002'),
                      ('integer of 7 bytes', 'b002' + '00' * 7), ('integer of 9 bytes', 'b002' + '00' * 9),
                      ('integer of 1 byte', 'b00207'), ('float without bytes', 'b003'), ('float of 7 bytes', 'b003' + '00' * 7),
                      ('float of 9 bytes', 'b003' + '00' * 9), ('string of 65 bytes', 'b004' + '61' * 65),
                      ('string of 200 bytes', 'b004' + '61' * 200), ('tag 05', 'b00500'), ('tag 05 alone', 'b005'),
                      ('tag 06', 'b006'), ('tag ff', 'b0ff'), ('tag 10', 'b010')):
        case(name, A0, bad + '\n', end(1), wants=(2, 1))
    case('string of 64 bytes', A0, string(64), end(1), wants=(0, 1))
    case('string of 63 bytes', A0, string(63), end(1), wants=(0, 1))
    for n in (0, 1, 2, 3, 4, 6, 7, 20):
        case('c0 with %d bytes' % n, A0, 'c0' + '00' * n + '\n', end(1), wants=(2, 1))
    case('e0 without a byte', A0, 'e0\n', wants=(2, 1))
    case('e0 with two bytes', A0, 'e00001\n', wants=(2, 1))
    case('e0 one too few', A0, A0, end(1), wants=(2, 2))
    case('e0 one too many', A0, end(2), wants=(2, 1))
    case('e001 without a prototype', 'e001\n', wants=(2, 0))
    case('e0 count wrong, then a byte', A0, end(0), 'x', wants=(2, 1))


def order():
    case('b0 before any a0', NIL, A0, end(1), wants=(2, 0))
    case('c0 before any a0', C0, A0, end(1), wants=(2, 0))
    case('b0 after c0', A0, C0, NIL, end(1), wants=(2, 2))
    case('a string after c0', A0, C0, string(1), end(1), wants=(2, 2))
    case('b0 after c0 in the second prototype', A0, C0, A0, NIL, C0, NIL, end(2), wants=(2, 5))
    case('a wrong constant before any a0', 'b006\n', wants=(2, 0))
    case('a wrong instruction before any a0', 'c0\n', wants=(2, 0))


def descriptors():
    """Document 02, 6/12: "00 and a parent's register, or 01 and the parent's upvalue number", "between a0 and its constants, at most 8 (3)"."""
    case('d1: a register of the parent', A0, D1, C0, end(1), wants=(0, 1))
    case('d1: an upvalue of the parent', A0, 'd10100\n', C0, end(1), wants=(0, 1))
    case('d1: of a prototype without constants and instructions', A0, D1, end(1), wants=(0, 1))
    case('d1: before constants and instructions', A0, 'd10007\n', 'd10103\n', NIL, string(3), C0, C0, end(1), wants=(0, 1))
    case('d1: two are one', A0, 'd10005\n', 'd10005\n', C0, end(1), wants=(0, 1))
    case('d1: of the second prototype', A0, C0, A0, 'd10105\n', NIL, C0, end(2), wants=(0, 2))
    case('d1: of the first prototype only', A0, 'd10105\n', NIL, C0, A0, C0, end(2), wants=(0, 2))
    case('d1: the next prototype behind descriptors alone', A0, D1, A0, 'd10101\n', end(2), wants=(0, 2))
    for number in (0, 1, 127, 128, 254, 255):
        case('d1: register %d' % number, A0, 'd100%02x\n' % number, end(1), wants=(0, 1))
        case('d1: upvalue %d' % number, A0, 'd101%02x\n' % number, end(1), wants=(0, 1))
    for kind in (2, 3, 16, 127, 128, 255):
        case('d1: first byte %d' % kind, A0, 'd1%02x00\n' % kind, end(1), wants=(2, 1))
    for n in (0, 1, 3, 4, 5, 20):
        case('d1: %d bytes' % n, A0, 'd1' + '00' * n + '\n', end(1), wants=(2, 1))
    case('d1: before any a0', D1, A0, end(1), wants=(2, 0))
    case('d1: wrong, before any a0', 'd102\n', A0, end(1), wants=(2, 0))
    case('d1: after b0', A0, NIL, D1, end(1), wants=(2, 2))
    case('d1: after c0', A0, C0, D1, end(1), wants=(2, 2))
    case('d1: after b0 and c0', A0, NIL, C0, D1, end(1), wants=(2, 3))
    case('d1: once more after b0', A0, D1, NIL, 'd10100\n', end(1), wants=(2, 3))
    case('d1: once more after c0', A0, D1, C0, D1, end(1), wants=(2, 3))
    case('d1: after b0 of the second prototype', A0, NIL, C0, A0, NIL, D1, end(2), wants=(2, 5))
    case('d1: after c0 of the second prototype', A0, C0, A0, C0, D1, end(2), wants=(2, 4))
    case('d1: after e0', SESSION, D1, wants=(4, 5))
    case('d1: instead of e0', A0, D1, wants=(4, 2))
    case('d1: lacks its LF', A0, D1[:-1], wants=(1, 1))
    case('d1: an uppercase digit', A0, 'D10000\n', end(1), wants=(1, 1))
    case('d1: an uppercase digit in its number', A0, 'd1000A\n', end(1), wants=(1, 1))
    case('d1: odd digits', A0, 'd1000\n', end(1), wants=(1, 1))
    case('d1: five digits', A0, 'd10000\n'[:-2] + '\n', end(1), wants=(1, 1))
    for n in range(2, 9):
        case('d1: %d of them' % n, A0, *['d1%02x%02x\n' % (i % 2, 16 * n + i) for i in range(n)], NIL, C0, end(1), wants=(0, 1))
    case('d1: the ninth', A0, (9, D1), end(1), wants=(3, 9))
    case('d1: the ninth, then a bad line', A0, (9, D1), 'x\n', wants=(3, 9))
    case('d1: the ninth has first byte 2', A0, (8, D1), 'd10200\n', end(1), wants=(2, 9))
    case('d1: the ninth is too short', A0, (8, D1), 'd100\n', end(1), wants=(2, 9))
    case('d1: the ninth has odd digits', A0, (8, D1), 'd1000\n', end(1), wants=(1, 9))
    case('d1: the ninth stands after a constant', A0, (8, D1), NIL, D1, end(1), wants=(2, 10))
    case('d1: the ninth stands after an instruction', A0, (8, D1), C0, D1, end(1), wants=(2, 10))
    case('d1: they start anew with each prototype', A0, (8, D1), A0, (8, 'd101ff\n'), A0, (8, 'd10003\n'), C0, end(3), wants=(0, 3))
    case('d1: the ninth of the second prototype', A0, (8, D1), A0, (9, D1), end(2), wants=(3, 18))
    case('d1: 8 of each of 32 prototypes', *[line for q in range(32) for line in (A0, *['d1%02x%02x\n' % ((q + i) % 2, 8 * q + i) for i in range(8)])],
         end(32), wants=(0, 32))
    case('d1: of each second of 32 prototypes', *[line for q in range(16) for line in (A0, (q % 8 + 1, 'd100%02x\n' % q), NIL, A0, C0)], end(32),
         wants=(0, 32))
    case('d1: 8 of the last of 32 prototypes', (31, A0), A0, (8, 'd101ff\n'), end(32), wants=(0, 32))
    case('d1: beside 256 constants and 3,000 instructions', A0, (8, 'd100fe\n'), (256, NIL), (3000, C0), end(1), wants=(0, 1))


def limits():
    case('31 prototypes', (31, A0), end(31), wants=(0, 31))
    case('32 prototypes', (32, A0), end(32), wants=(0, 32))
    case('33 prototypes', (33, A0), end(33), wants=(3, 32))
    case('the 33rd a0 has registers 0', (32, A0), 'a00000\n', end(32), wants=(2, 32))
    case('the 33rd a0 has odd digits', (32, A0), 'a0010\n', end(32), wants=(1, 32))
    case('the 33rd a0, then a bad line', (33, A0), 'x\n', wants=(3, 32))
    case('255 constants', A0, (255, NIL), end(1), wants=(0, 1))
    case('256 constants', A0, (256, NIL), C0, end(1), wants=(0, 1))
    case('257 constants', A0, (257, NIL), end(1), wants=(3, 257))
    case('the 257th constant is a string', A0, (256, NIL), string(64), end(1), wants=(3, 257))
    case('the 257th constant has tag 06', A0, (256, NIL), 'b006\n', end(1), wants=(2, 257))
    case('the 257th constant has 65 bytes of string', A0, (256, NIL), string(65), end(1), wants=(2, 257))
    case('the 257th constant has odd digits', A0, (256, NIL), 'b0000\n', end(1), wants=(1, 257))
    case('the 257th constant stands after an instruction', A0, (256, NIL), C0, NIL, end(1), wants=(2, 258))
    case('constants start anew with each prototype', A0, (256, NIL), A0, (256, 'b00101\n'), end(2), wants=(0, 2))
    case('4,095 instructions', A0, (4095, C0), end(1), wants=(0, 1))
    case('4,096 instructions', A0, (4096, C0), end(1), wants=(0, 1))
    case('4,097 instructions', A0, (4097, C0), end(1), wants=(3, 4097))
    case('the 4,097th instruction is too short', A0, (4096, C0), 'c0000000\n', end(1), wants=(2, 4097))
    case('the 4,097th instruction has an uppercase digit', A0, (4096, C0), 'c0000000000A\n', end(1), wants=(1, 4097))
    case('a constant after 4,096 instructions', A0, (4096, C0), NIL, end(1), wants=(2, 4097))
    case('instructions start anew with each prototype', A0, (4096, C0), A0, (900, C0), end(2), wants=(0, 2))
    case('32 prototypes of 256 constants', *[p for i in range(32) for p in ('a0%02x01\n' % (i + 1), (256, 'b00101\n'))], end(32),
         wants=(0, 32))
    case('as much string as fits', A0, (256, string(64)), A0, (236, string(64, '62')), end(2), wants=(0, 2))
    case('as many instructions as fit', A0, (4096, C0), A0, (943, 'c02c03040506\n'), end(2), wants=(0, 2))


def image_length():
    full = [A0, (4096, C0), A0, (2, NIL), (943, C0)]
    case('65,536 bytes', *full, end(2), wants=(0, 2), length=65536)
    case('65,535 bytes', A0, (4096, C0), A0, NIL, string(6), (942, C0), end(2), wants=(0, 2), length=65535)
    case('65,536 bytes, of which the last is a byte after e0', A0, (4096, C0), A0, NIL, string(6), (942, C0), end(2), 'x',
         wants=(4, 5043), length=65536)
    case('65,537 bytes, of which the last is a byte after e0', *full, end(2), 'x', wants=(3, 0), length=65537)
    case('65,537 bytes, of which line 0 is bad', 'X', *full, end(2), wants=(3, 0), length=65537)
    with_descriptors = [A0, (8, D1), (4096, C0), A0]
    case('65,536 bytes, d1 among them', *with_descriptors, (2, NIL), string(2), (938, C0), end(2), wants=(0, 2), length=65536)
    case('65,535 bytes, d1 among them', *with_descriptors, NIL, string(4), (938, C0), end(2), wants=(0, 2), length=65535)
    case('65,537 bytes, d1 among them', *with_descriptors, (4, NIL), (938, C0), end(2), wants=(3, 0), length=65537)
    case('one d1 too many for 65,536 bytes', A0, (4096, C0), A0, (2, D1), (943, C0), end(2), wants=(3, 0), length=65540)
    case('one d1 fewer fits', A0, (4096, C0), A0, D1, (943, C0), end(2), wants=(0, 2), length=65533)
    case('65,535 bytes of d1', A0, (9361, D1), 'x', wants=(3, 9), length=65535)
    case('65,536 bytes, no LF', (65536, 'a'), wants=(1, 0))
    case('65,537 bytes, no LF', (65537, 'a'), wants=(3, 0))
    case('65,536 LFs', (65536, '\n'), wants=(1, 0))
    case('65,537 LFs', (65537, '\n'), wants=(3, 0))
    case('65,535 bytes of one line', (65534, '0'), '\n', wants=(2, 0), length=65535)
    case('65,536 bytes of one line, odd digits', (65535, '0'), '\n', wants=(1, 0), length=65536)
    case('65,535 bytes of nil constants', A0, (13105, NIL), 'b0\n', wants=(3, 257), length=65535)


def sizes():
    for i, name in enumerate(('table', 'code', 'kinds', 'words', 'texts')):
        short = ''.join('0' if j == i else '1' for j in range(5))
        case('%s one cell short, a good image' % name, SESSION, storage=short, wants=(5, 0))
        case('%s one cell longer, a good image' % name, SESSION, storage=short.replace('0', '2'), wants=(0, 1))
    case('all short, the empty input', storage='00000', wants=(5, 0))
    case('short comes before 65,537 bytes', (65537, 'a'), storage='10111', wants=(5, 0))
    case('short comes before a bad line', A0, 'X\n', storage='11110', wants=(5, 0))
    case('all longer, a good image', SESSION, storage='22222', wants=(0, 1))
    case('all longer, a refused image', SESSION, 'x', storage='22222', wants=(4, 5))


def some_line(rng):
    kind = rng.randrange(8)
    if kind == 0:
        registers = rng.randrange(1, 256)
        return 'a0%02x%02x' % (registers, rng.randrange(registers + 1))
    if kind in (1, 2):
        return rng.choice(['b000', 'b0010%d' % rng.randrange(2), 'b002%016x' % rng.getrandbits(64),
                           'b003%016x' % rng.getrandbits(64), 'b004' + rng.randbytes(rng.randrange(20)).hex()])
    return 'c0' + rng.randbytes(5).hex()


def drawn_descriptors():
    rng = random.Random(20260612)
    for i in range(60):
        body = []
        protos = rng.randrange(1, 6)
        for _ in range(protos):
            registers = rng.randrange(1, 256)
            body.append('a0%02x%02x' % (registers, rng.randrange(registers + 1)))
            body += ['d10%d%02x' % (rng.randrange(2), rng.randrange(256)) for _ in range(rng.randrange(9))]
            body += ['b002%016x' % rng.getrandbits(64) for _ in range(rng.randrange(3))]
            body += ['c0' + rng.randbytes(5).hex() for _ in range(rng.randrange(4))]
        good = lines(*body, 'e0%02x' % protos)
        case('drawn with d1 %d' % i, good, wants=(0, protos))
        # a line goes elsewhere, or comes twice
        to, at = rng.randrange(len(body)), rng.randrange(len(body))
        moved = body[:at] + body[at + rng.randrange(2):]
        moved.insert(to, body[at])
        case('drawn with d1 %d, a line moved' % i, lines(*moved, 'e0%02x' % sum(line[:2] == 'a0' for line in moved)))
        at = rng.randrange(len(good))
        case('drawn with d1 %d, changed' % i, good[:at] + rng.choice('0123456789abcdefABg \n\r\0') + good[at + rng.randrange(3):])


def drawn():
    rng = random.Random(20250101)
    for i in range(120):
        body, protos = [], 0
        for _ in range(rng.randrange(1, 14)):
            line = some_line(rng)
            if line[:2] == 'b0' and (not protos or body[-1][:2] == 'c0') or line[:2] == 'c0' and not protos:
                line = 'a0%02x00' % rng.randrange(1, 256)
            protos += line[:2] == 'a0'
            body.append(line)
        good = lines(*body, 'e0%02x' % protos)
        case('drawn %d' % i, good, wants=(0, protos))
        for j in range(3):
            at = rng.randrange(len(good))
            to = rng.choice('0123456789abcdefABg \n\r\0')
            cut = rng.choice([at, at + 1, at + 1, at + 2, at + rng.randrange(20)])
            case('drawn %d, changed %d' % (i, j), good[:at] + to + good[cut:])


def main():
    check = checking(__doc__)
    for group in (accepted, empty_and_end, hexadecimal, fields, order, descriptors, limits, image_length, sizes, drawn, drawn_descriptors):
        group()
    given, wanted = [], []
    for name, pieces, storage, answer in CASES:
        given.append('# %s\n' % name)
        for count, text in pieces:
            given.append('%05d %s\n' % (count, ''.join(SAID.get(c, c) for c in text)))
        given.append('.%s\n' % storage)
        wanted.append('# %s\n%s \n' % (name, ' '.join(map(str, answer))))
    keep('images', ''.join(given), ''.join(wanted), check)
    print('%d cases' % len(CASES))


main()
