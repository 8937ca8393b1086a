"""The strings that are read, by family: `families()` gives each name with its list. No string is there twice.

Each function makes a family from nothing but its own dice, so that a string more in one leaves the others alone."""
import os
import sys
from fractions import Fraction
from itertools import product

sys.dont_write_bytecode = True
sys.path.insert(1, os.path.join(os.path.dirname(os.path.realpath(__file__)), '..'))
from figure import BLANKS, TOP
from oracle.dice import Dice

SIGNS = ('', '-', '+')


def digits(dice, n):
    """So many digits, the first of them not 0."""
    return str(1 + dice.below(9)) + ''.join(str(dice.below(10)) for _ in range(n - 1)) if n else ''


def pointed(dice, text):
    """Digits with a point in one of its places, both ends among them."""
    place = dice.below(len(text) + 1)
    return text[:place] + '.' + text[place:]


def exponent(dice, power):
    """An exponent, as it may be written."""
    sign = '-' if power < 0 else dice.pick(('', '+'))
    return dice.pick('eE') + sign + '0' * dice.pick((0, 0, 0, 1, 2, 17)) + str(abs(power))


def at_power(dice, value, power):
    """value x 10^power as a fraction, written in one of many ways: zeros in front and behind, the point anywhere, an exponent."""
    behind = dice.pick((0, 0, 0, 1, 5))
    text = '0' * dice.pick((0, 0, 0, 1, 4)) + str(value) + '0' * behind
    places = dice.pick((0, 1, dice.below(len(text) + 1), len(text)))
    power += places - behind
    if places:
        text = text[:len(text) - places] + '.' + text[len(text) - places:]
    return text if places and power == 0 else text + exponent(dice, power)


# ---- the form

def each_byte():
    """Every byte alone, before, behind and between what a figure is made of."""
    for b in range(256):
        one = bytes([b])
        yield one
        for left, right in ((b'', b'7'), (b'7', b''), (b'', b'-7'), (b'-', b'7'), (b'7', b'8'), (b'0x', b''), (b'0x1', b''), (b'0', b'1'),
                            (b'1', b'.5'), (b'1.', b'5'), (b'1e', b'5'), (b'1e5', b'')):
            yield left + one + right


def short():
    """All texts of two bytes to five over what a figure is made of, fewer kinds of byte in the longer ones."""
    for n, alphabet in ((2, b' \t\n+-.0189aAefEFgpxX_n\0'), (3, b' +-.015aeExX_'), (4, b' -.01exf'), (5, b'-.0e9')):
        for text in product(alphabet, repeat=n):
            yield bytes(text)


def blanks():
    """Blanks at both ends, several and of all kinds, and in places where none may stand."""
    dice = Dice(1)
    bodies = ('7', '-7', '+7', '0x1F', '-0Xa', '1.5', '-.5e+3', '5.', '0e99', '12345678901234567890', '1e23', '')
    for body in bodies:
        for i in range(20):
            left, right = (bytes(dice.pick(BLANKS) for _ in range(dice.below(5))) for _ in range(2))
            yield left + body.encode() + right
        for at in range(len(body) + 1):
            for b in BLANKS:
                yield body[:at].encode() + bytes([b]) + body[at:].encode()
    yield from (BLANKS * 5 + b'12' + BLANKS * 5, b' ' * 63 + b'9', b'9' + b' ' * 63, b' ' * 64, b'\r\n' * 31 + b'-8')


def refused():
    """The forms that are out, each with every sign, with blanks, and with something behind."""
    bodies = [
        b'', b'.', b'e', b'e1', b'.e1', b'x1', b'0x', b'0X', b'0xg', b'0x ', b'1e', b'1e+', b'1e-', b'1E', b'1e+-1', b'1ee1', b'1e1e1', b'1e1.', b'1e1.5',
        b'1e.5', b'.e', b'..', b'1..2', b'1.2.3', b'1.2.', b'..1', b'1_0', b'1_000', b'1,5', b"1'000", b'0x1_0', b'0x1p3', b'0x1P3', b'0x1p', b'0x.8', b'0x1.8',
        b'0x1.', b'0x.', b'0xA.8p1', b'0x1p-3', b'0x1e+1', b'0x1-1', b'00x1', b'1x1', b'x', b'0b1', b'0o7', b'0x0x1', b'inf', b'Inf', b'INF', b'infinity', b'nan',
        b'NaN', b'nan(1)', b'1 2', b'1\t2', b'1 .', b'1 e1', b'1e 1', b'0 x1', b'0x 1', b'-1', b'+1', b'--1', b'+-1', b'-+1', b'1-', b'1+', b'1+1', b'1f', b'1.0f', b'1d', b'1L',
        b'1u', b'0x1u', b'1i', b'1%', b'$1', b'#1', b'1;', b'(1)', b'"1"', b'one', b'true', b'nil', b'1\0', b'\0', b'\x001', b'1\x002', b'0\0x1', b'1.\x005', b'1e1\0', b'0x1\0',
        b'\xa01', b'1\xa0', '١'.encode(), '１'.encode(), '\u22121'.encode(), '\u20031'.encode(), '\ufeff1'.encode(), b'\x851', b'1\x85', b'\x1c1', b'1\x1f',
        b'\xff', b'\x80', b'0x\xff', b'1e\xff', b'1234567890123456', b'1e23', b'1e-23', b'9223372036854775808', b'1e99999999999999999999', b'a' * 64,
    ]
    for body in bodies:
        for sign in (b'', b'-', b'+'):
            yield sign + body
        for text in (b' ' + body, body + b' ', b'\n' + body + b'\t', b' - ' + body, body + b'\0', body + b'.', body + b'e1', body + b'x'):
            yield text


def mutated():
    """Figures with one byte put in, left out, replaced or doubled, or two bytes exchanged."""
    dice = Dice(2)
    stock = [text for family in (integers, hexadecimals, fractions, exponents) for text in family() if len(text) < 40]
    alphabet = b'0123456789.eE+-xXabfF \t_\0pn\xa0'
    for _ in range(3500):
        text = dice.pick(stock)
        at, one = dice.below(len(text)), bytes([dice.pick(alphabet)])
        yield dice.pick((text[:at] + one + text[at:], text[:at] + text[at + 1:], text[:at] + one + text[at + 1:], text[:at] + text[at:at + 1] + text[at:],
                         text[:at] + text[at + 1:at + 2] + text[at:at + 1] + text[at + 2:]))


# ---- integers

def integers():
    """Decimal integers: the ends of i64 and of what numbers hold, leading zeros, and those that go on as fractions."""
    dice = Dice(3)
    for edge in (0, 2**31, 2**32, 2**53, 2**62, TOP, 2**64, 10**15, 10**18, 10**19, 10**22, 10**23, 92233720368547758 * 100):
        for near in range(-11, 12):
            if edge + near >= 0:
                for sign in SIGNS:
                    yield (sign + '0' * dice.pick((0, 0, 0, 1, 3, 30)) + str(edge + near)).encode()
    for n in range(1, 24):
        for _ in range(24):
            yield (dice.pick(SIGNS) + '0' * dice.pick((0, 0, 1, 2, 20)) + digits(dice, n)).encode()
    for n in range(1, 18):
        for zeros in range(0, 26):
            yield (dice.pick(SIGNS) + digits(dice, n) + '0' * zeros).encode()
    for zeros in range(1, 63):
        yield b'0' * zeros + b'12'
        yield b'-' + b'0' * zeros
        yield b'1' + b'0' * zeros


def hexadecimals():
    """0x of either case: all lengths, those that wrap, the edges of 64 bits, negative ones."""
    dice = Dice(4)
    for edge in (0, 2**4, 2**31, 2**32, 2**53, TOP, 2**64, TOP * 3, 2**65, 2**128, 2**240):
        for near in range(-3, 4):
            if edge + near >= 0:
                for sign in SIGNS:
                    yield ('%s%s%s%x' % (sign, dice.pick(('0x', '0X')), '0' * dice.pick((0, 0, 1, 9)), edge + near)).encode()
    for n in range(1, 62):
        for _ in range(20):
            text = ''.join(dice.pick('0123456789abcdefABCDEF') for _ in range(n))
            yield (dice.pick(SIGNS[:2 if n > 60 else 3]) + dice.pick(('0x', '0X')) + text).encode()
    for n in range(1, 62):
        yield b'0x' + b'f' * n
        yield b'-0x8' + b'0' * (n - 1)


# ---- fractions

def fractions():
    """A point in every place of 1 to 17 digits, zeros in front and behind."""
    dice = Dice(5)
    for n in range(1, 18):
        for place in range(n + 1):
            for _ in range(6):
                text = digits(dice, n)
                if dice.chance(4):
                    text = '0' * dice.below(4) + text + '0' * dice.below(4)
                yield (dice.pick(SIGNS) + text[:place] + '.' + text[place:]).encode()
    for places in range(0, 60):
        yield b'.' + b'0' * places + b'1'
        yield b'0.' + b'0' * places + b'625'
        yield b'-12' + b'0' * places + b'.'
        yield b'7.' + b'0' * places


def exponents():
    """Exponents with sign, leading zeros and beyond every bound; those that the point and the zeros make up for."""
    dice = Dice(6)
    for power in list(range(-48, 49)) + [99, 308, 309, 323, 324, 400, 999, 32768, 65536, 2**31, 2**32, 2**63 - 1, 2**63, 2**64, 2**64 + 5, 10**19, 10**30]:
        for _ in range(16):
            text = digits(dice, 1 + dice.below(16))
            text = dice.pick((text, pointed(dice, text), '0.' + '0' * dice.below(25) + text, text + '0' * dice.below(25), text[0]))
            yield (dice.pick(SIGNS) + text + exponent(dice, dice.pick((power, -power)))).encode()
    for zeros in range(0, 58):
        yield ('1' + '0' * zeros + 'e-%d' % zeros).encode()
        yield ('1' + '0' * zeros + 'e-%d' % (zeros // 2)).encode()
        yield ('0.' + '0' * zeros + '1e%d' % (zeros + 1)).encode()
        yield ('-0.' + '0' * zeros + '1e%d' % (zeros + 24)).encode()
        yield ('1e' + '0' * zeros + '22').encode()
        yield ('1E-' + '0' * zeros + '22').encode()


def powers():
    """Few digits, with and without zeros in front and behind, under every exponent about -22 and 22."""
    for text in ('1', '10', '1000', '0.1', '.001', '1.0', '5', '15', '1.5', '150', '.15', '0.0150', '999999999999999', '9999999999999990', '99999999999999.9',
                 '.999999999999999', '1234567890123456', '-3', '+30'):
        for power in range(-48, 49):
            yield ('%se%d' % (text, power)).encode()


def significant():
    """14 to 17 digits: with zeros in front, behind and between, which alone don't count, and the point anywhere."""
    dice = Dice(7)
    for n in (14, 15, 16, 17):
        for _ in range(300):
            text = digits(dice, n - 1) + str(1 + dice.below(9))
            if dice.chance(3):
                text = text[0] + '0' * (n - 2) + text[-1]
            power = dice.pick((0, 0, 1, -1, 22, -22, 23, -23, dice.below(45) - 22))
            yield (dice.pick(SIGNS) + at_power(dice, int(text), power)).encode()


def zeros():
    """Zero fits, whatever its digits and exponent."""
    dice = Dice(8)
    for body in ('0', '00', '0.', '.0', '0.0', '000.000', '.' + '0' * 40, '0' * 40 + '.', '0' * 30):
        for tail in ('', 'e0', 'e1', 'E-1', 'e22', 'e23', 'e-23', 'e+400', 'e-400', 'e99999', 'e-99999999999999999999', 'e' + '9' * 20, 'e' + '0' * 15):
            for sign in SIGNS:
                yield (sign + body + tail).encode()
    for _ in range(60):
        yield (dice.pick(SIGNS) + '0' * dice.below(20) + '.' + '0' * (1 + dice.below(20)) + exponent(dice, dice.below(1000) - 500)).encode()


# ---- rounding

def ties():
    """Halfway between two numbers, exactly: D x 10^E whose odd part has 54 bits. Its neighbours stand beside it."""
    dice = Dice(9)
    for power in range(2, 23):
        low, high = -(-2**53 // 5**power), 2**54 // 5**power
        for _ in range(32):
            odd = (low + dice.below(high - low + 1)) | 1
            doubled = odd * 2**dice.below(50)
            while doubled >= 10**15:
                doubled //= 2
            if doubled % 2 == 0 or doubled == odd:
                for near in (0, 0, 1, -1):
                    if 0 < doubled + near < 10**15:
                        yield (dice.pick(SIGNS) + at_power(dice, doubled + near, power)).encode()


def first_within(step, size, low, high):
    """The smallest n for which n x step, modulo size, is from low to high; or None."""
    if low == 0:
        return 0
    if step == 0:
        return None
    n = -(-low // step)
    if n * step <= high:
        return n
    turns = first_within(size % step, step, -high % step, -low % step)
    return None if turns is None else -(-(low + size * turns) // step)


def binade(q):
    """The power of two that a number's last digit has where its size is q."""
    unit = q.numerator.bit_length() - q.denominator.bit_length() - 53
    return unit + 1 if q >= Fraction(2) ** (unit + 53) else unit


def beside_half(start, power, side, one_in):
    """The first D from start on with D x 10^power on one side of halfway between two numbers, no farther off than one in so many of their distance."""
    unit = binade(start * Fraction(10) ** power)
    scaled = Fraction(10) ** power / Fraction(2) ** unit
    size, begun = scaled.denominator, start * scaled.numerator
    width = max(1, size // one_in)
    low = (size // 2 + (1 if side > 0 else -width) - begun) % size
    n = first_within(scaled.numerator % size, size, low, min(low + width - 1, size - 1)) if size > 2 else None
    found = None if n is None else start + n
    return found if found and binade(found * Fraction(10) ** power) == unit else None


def nearly_ties():
    """As near to halfway as 15 digits come, above and below, for every power; those of fewer digits are farther off."""
    dice = Dice(10)
    for power in range(-22, 23):
        for length, one_in in ((14, 10**13), (14, 10**13), (14, 10**12), (14, 10**10), (12, 10**10), (9, 10**7), (6, 10**4)):
            start = (1 + dice.below(7)) * 10**length + dice.below(2**31) * 10**length // 2**31
            for side in (1, -1):
                value = beside_half(start, power, side, one_in)
                if value and value < 10**15:
                    yield (dice.pick(SIGNS) + at_power(dice, value, power)).encode()


def numbers():
    """Any digits and any power that are in, or just out."""
    dice = Dice(11)
    for _ in range(3000):
        value = int(digits(dice, 1 + dice.below(15)))
        yield (dice.pick(SIGNS) + at_power(dice, value, dice.below(49) - 24)).encode()


def long():
    """Texts as long as an image's strings may be, and longer ones, up to 255 bytes."""
    dice = Dice(12)
    for length in (63, 64, 65, 100, 127, 128, 129, 200, 254, 255):
        for body in ('7', '-12', '1.5', '0x1f', '1e5', '-9223372036854775808', '9223372036854775808', '10000000000000000000', '.5', 'x'):
            sign, rest = (body[0], body[1:]) if body[0] == '-' else ('', body)
            pad = length - len(body)
            yield (body + ' ' * pad).encode()
            yield (' ' * pad + body).encode()
            yield (' ' * (pad // 2) + body + '\t' * (pad - pad // 2)).encode()
            yield (sign + '0' * pad + rest).encode()
            yield (body + '0' * pad).encode()
            yield (body + '1' * pad).encode()
        yield ('0x' + ''.join(dice.pick('0123456789abcdef') for _ in range(length - 2))).encode()
        yield ('-0X' + ''.join(dice.pick('0123456789ABCDEF') for _ in range(length - 3))).encode()
        yield ('0.' + '0' * (length - 7) + '1e' + str(length - 6)).encode()
        yield ('1' + '0' * (length - 6) + 'e-%d' % (length - 6)).encode()
        yield ('1e' + '0' * (length - 4) + '22').encode()
        yield ('1e-' + '0' * (length - 5) + '23').encode()
        yield digits(dice, length).encode()
        yield bytes(dice.below(256) for _ in range(length))


FAMILIES = (
    ('every byte in every place', each_byte), ('short texts', short), ('blanks', blanks), ('refused forms', refused), ('decimal integers', integers),
    ('hexadecimal integers', hexadecimals), ('fractions', fractions), ('exponents', exponents), ('powers of ten', powers), ('significant digits', significant),
    ('zeros', zeros), ('halfway', ties), ('nearly halfway', nearly_ties), ('any digits and power', numbers), ('one byte changed', mutated), ('long texts', long),
)


def families():
    seen, found = set(), []
    for name, family in FAMILIES:
        texts = []
        for text in family():
            if text not in seen:
                seen.add(text)
                texts.append(text)
        found.append((name, texts))
    return found
