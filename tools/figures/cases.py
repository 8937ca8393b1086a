#!/usr/bin/env python3
"""Makes the strings and the operators' operands of crates/strings, and what they must read as and give by document 02, 1/12, and whom an error
names, 5/12.

    python3 tools/figures/cases.py             writes crates/strings/stdin and stdout, and the first part of tools/figures/differences.md
    python3 tools/figures/cases.py --check     writes nothing, and fails where one of these is stale
    tools/figures/make.sh RUST [--check]       the same with the Rust's part of differences.md

The answers are those of figure.py and of reference.py and named.py of tools/vectors. Python's own numbers, lua5.3 and lua5.4 are asked too, with RUST the
Rust; where one of them answers what expected.py doesn't foretell, the script stops. No clock and no random numbers but its own: the same bytes
each time."""
import os
import struct
import subprocess
import sys
from itertools import product

sys.dont_write_bytecode = True
HERE = os.path.dirname(os.path.realpath(__file__))
sys.path.insert(1, os.path.join(HERE, '..'))
from expected import (BLANK_ENDS, FLOATS, HEX_FRACTION, KIND, MORE_DIGITS, MORE_POWER, NAMED, NO_BITS, NO_DIGITS, PAST_END, SMALLEST, STRING_LIBRARY,
                      VANISHES, WRAPS, answer, lua_answer, lua_figure, ours, rust_causes)
from figure import BLANKS, decimal, figure, split
from oracle.kept import content, keep
from reference import INTEGER, NUMBER, STRING, to_number
from causes import AGREED, COMPARED, ORDER_OF_TESTS, shown, shown_vector
from named import CLASS_OF, ERRORS
from strings import families

DIFFERENCES = os.path.join(HERE, 'differences.md')
VERSIONS = ('5.3', '5.4')
# What crates/strings/src/main.rt reads at a time.
PAGE = 65536
# The operation, its error, its name, how many operands.
OPERATORS = (
    (0x1f, 36, 'negate', 1), (0x20, 40, 'bitwise_not', 1), (0x21, 30, 'add', 2), (0x22, 31, 'subtract', 2), (0x23, 32, 'multiply', 2),
    (0x24, 33, 'float_divide', 2), (0x25, 34, 'floor_divide', 2), (0x26, 35, 'modulo', 2), (0x28, 37, 'bitwise_and', 2), (0x29, 38, 'bitwise_or', 2),
    (0x2a, 39, 'bitwise_xor', 2), (0x2b, 41, 'shift_left', 2), (0x2c, 42, 'shift_right', 2), (0x1b, 0, 'is_equal', 2), (0x1c, 43, 'less_than', 2),
    (0x1d, 44, 'less_equal', 2),
)


# ---- the operands

def word(x):
    return int.from_bytes(struct.pack('>d', x), 'big')


INSIDE = (
    b'10', b' 10\t', b'0', b'-0', b'1', b'-1', b'2', b'+3', b'-7', b'63', b'64', b'9007199254740993', b'9223372036854775807', b'-9223372036854775808', b'-0xF',
    b'0xffffffffffffffff', b'0x8000000000000000', b'0x10000000000000002', b'10000000000000000000', b'0.0', b'-0.0', b'3.0', b'-2.', b'1.5', b'-.5', b'0.1', b'1e3',
    b'1e22', b'1e-22', b'\n-123456789012.345\r',
)
OUTSIDE = (b'', b'-', b'abc', b'1 2', b'1\0', b'0x', b'nan', b'0x1p3', b'1e23', b'1e-23', b'9007199254740992.', b'9223372036854775808')
OPERANDS = (
    [(0, 0), (1, 0), (1, 1), (5, 0)] + [(INTEGER, z % 2**64) for z in (0, 1, -1, 2, -7, 10, 64, -2**63, 2**63 - 1)]
    + [(NUMBER, word(x)) for x in (0.0, -0.0, 1.0, 0.5, -1.5, 3.0, 2.0**53, 2.0**63, 1e22, 5e-324, float('inf'), -float('inf'))]
    + [(NUMBER, 0x7ff8000000000000)] + [(STRING, text) for text in INSIDE + OUTSIDE])


def operand_line(value):
    return 's' + value[1].hex() if value[0] == STRING else 'v%d %016x' % value


def vectors():
    """Each operator's results in order: its name and the operands of each."""
    for _, _, name, arity in OPERATORS:
        yield from ((name, [a]) for a in OPERANDS) if arity == 1 else ((name, [a, b]) for a in OPERANDS for b in OPERANDS)


# ---- every string with something beside it

BESIDE = [(INTEGER, 7), (STRING, b'10'), (NUMBER, word(-2.5)), (INTEGER, 0), (STRING, b' 0x1F'), (NUMBER, word(0.0)), (STRING, b'2.5'), (INTEGER, 2**64 - 3)]
BLOCK = 100


class Block:
    """Some strings, one of BESIDE before them, and whether that is the left operand or the right one."""
    def __init__(self, turn, texts):
        self.first = turn % 2 == 0
        self.operands = [BESIDE[turn // 2 % len(BESIDE)]] + [(STRING, text) for text in texts]

    def vectors(self, name, arity):
        beside = self.operands[0]
        return [(name, [v] if arity == 1 else [beside, v] if self.first else [v, beside]) for v in self.operands]

    def rows(self, name, arity):
        """A row has one left operand, or all only ones."""
        results = [ours(*vector) for vector in self.vectors(name, arity)]
        return ['r' + ''.join(results)] if arity == 1 or self.first else ['r' + result for result in results]


def blocks(texts):
    """Dealt out, so that a block has strings of every family."""
    many = -(-len(texts) // BLOCK)
    return [Block(turn, texts[turn::many]) for turn in range(many)]


def block_vectors(texts):
    for block in blocks(texts):
        for _, _, name, arity in OPERATORS:
            yield from block.vectors(name, arity)


# ---- the list, and what must be written

def lists(strings):
    lines, counts = [], []

    def part(name, made, count):
        lines.append('# ' + name)
        lines.extend(made)
        lines.append('.')
        counts.append((name, count))

    for name, texts in strings:
        part(name, ['f%s %s' % (text.hex(), answer(figure(text))) for text in texts], len(texts))
    lines.append('w')
    lines.extend(operand_line(v) for v in OPERANDS)
    n = len(OPERANDS)
    for operation, error, name, arity in OPERATORS:
        results = [ours(name, [a]) for a in OPERANDS] if arity == 1 else [ours(name, [a, b]) for a in OPERANDS for b in OPERANDS]
        rows = ['r' + ''.join(results[i:i + n]) for i in range(0, len(results), n)]
        part(name, ['o%02x %02x' % (operation, error)] + rows, len(results))
    made = []
    texts = [text for _, family in strings for text in family]
    for block in blocks(texts):
        made += ['w', *map(operand_line, block.operands)]
        for operation, error, name, arity in OPERATORS:
            made += ['o%02x %02x' % (operation, error), *block.rows(name, arity)]
    part('every operator on every string', made, sum(1 for _ in block_vectors(texts)))
    wrote = ['%s: compared %d, different 0' % part for part in counts] + ['all %d agree' % sum(count for _, count in counts)]
    return paged(lines), '\n'.join(wrote) + '\n'


def paged(lines):
    """The lines as one text in pages: where a line doesn't fit its page any more, the rest of that is empty lines."""
    text, room = [], PAGE
    for line in lines:
        if len(line) + 1 > room:
            text.append('\n' * room)
            room = PAGE
        text.append(line + '\n')
        room -= len(line) + 1
    return ''.join(text)


# ---- Python

def held_by_python(texts):
    """Stops where Python's own integers and floats aren't what the reference gives."""
    for text in texts:
        found, _ = lua_figure(text)
        minus, body = split(text)
        if found and decimal(body):
            python = (INTEGER, int(text) % 2**64) if found[0] == INTEGER else (NUMBER, word(float(text)))
            if python != found:
                sys.exit('Python differs: %r: %s, not %s' % (text, answer(python), answer(found)))


# ---- Lua

def lua(version, what, lines):
    done = subprocess.run(['lua' + version, os.path.join(HERE, 'answers.lua'), what], input='\n'.join(lines) + '\n', stdout=subprocess.PIPE, text=True)
    if done.returncode:
        sys.exit('lua%s failed' % version)
    return done.stdout.splitlines()


def results_of(rows):
    """The results of `r` lines, one after the other."""
    for row in rows:
        at = 1
        while at < len(row):
            end = at + (17 if row[at] in 'in' else 1)
            yield row[at:end]
            at = end


class Differences:
    """How often each cause made an answer differ, and the smallest input that shows it."""
    def __init__(self):
        self.found = {}

    def add(self, key, size, text):
        count, best = self.found.get(key, (0, (size, text)))
        self.found[key] = count + 1, min(best, (size, text))


def lua_strings(version, texts, differences):
    for text, line in zip(texts, lua(version, 'figures', [text.hex() for text in texts]), strict=True):
        arithmetic, converted = line.split()
        found, cause = lua_figure(text)
        if version == '5.3' and found and found[0] == INTEGER:
            taken, cause = (NUMBER, to_number(found)), FLOATS
        else:
            taken = found
        if (arithmetic, converted) != (answer(taken), answer(found)):
            sys.exit('Lua %s: %r is %s and %s, not %s and %s' % (version, text, arithmetic, converted, answer(taken), answer(found)))
        if taken != figure(text):
            differences.add((cause, 'strings'), (len(text), text), (shown((STRING, text)), answer(figure(text)), arithmetic))


def lua_operators(version, texts, differences, names):
    rows = lua(version, 'operators', [operand_line(v) for v in OPERANDS])
    compare_lua(version, vectors(), rows, differences, names)
    rows = lua(version, 'blocks', [line for block in blocks(texts) for line in ('w' if block.first else 'l', *map(operand_line, block.operands))])
    compare_lua(version, block_vectors(texts), rows, differences, names)


def compare_lua(version, asked, rows, differences, names):
    """Where both raise an error, whom Lua names goes to `names`; every other difference to `differences`."""
    for (name, operands), got in zip(asked, results_of(rows), strict=True):
        foretold, cause = lua_answer(version, name, operands)
        want = ours(name, operands)
        if got != foretold or got != want and cause is None:
            sys.exit('Lua %s: %s %s is %s; foretold was %s, document 02 has %s' % (version, name, operands, got, foretold, want))
        both_raise = want in ERRORS and got in (*ERRORS, 'e')
        if both_raise or got != want:
            size = sum(len(v[1]) if v[0] == STRING else v[1].bit_length() for v in operands)
            where, text = WHERE[CLASS_OF[name]], shown_vector(name, operands)
            if both_raise:
                names.add((AGREED if got == want else cause, where, want), (size, text), (text, want, got))
            else:
                differences.add((cause, where), (size, text), (text, want, got))


# ---- the Rust

def rust_answers(folder, texts):
    """What both builds of the Rust answer to each text: read_integer and read_float."""
    answers = {}
    lines = '\n'.join(text.hex() for text in texts) + '\n'
    for build in ('released', 'checked'):
        done = subprocess.run([os.path.join(folder, build), 'figures'], input=lines, stdout=subprocess.PIPE, text=True, check=True)
        for text, line in zip(texts, done.stdout.splitlines(), strict=True):
            if answers.setdefault(text, tuple(line.split())) != tuple(line.split()):
                sys.exit('the two builds differ: %r' % text)
    return answers


def rust_strings(folder, texts, differences):
    answers = rust_answers(folder, sorted({t for text in texts for t in (text, text.strip(BLANKS))}))
    for text in texts:
        raw, bare = answers[text], answers[text.strip(BLANKS)]
        causes = rust_causes(text, raw, bare)
        if causes is None:
            sys.exit('the Rust: %r is %s, without blanks %s: no cause' % (text, raw, bare))
        for cause in causes:
            got = raw if cause == BLANK_ENDS else bare if figure(text) else raw
            inside = 'inside' if figure(text) else 'outside'
            differences.add((cause, inside), (len(text), text), (shown((STRING, text)), answer(figure(text)), got))


# ---- what is written

WHERE = {'arithmetic': 'arithmetic', 'bits': 'bit operations', 'comparison': 'comparisons'}
CAUSES = (FLOATS, NO_BITS, MORE_DIGITS, MORE_POWER, HEX_FRACTION, VANISHES)
NAMING = (AGREED, ORDER_OF_TESTS, NO_BITS, MORE_DIGITS, MORE_POWER, HEX_FRACTION, COMPARED, STRING_LIBRARY)
RUST_CAUSES = (BLANK_ENDS, SMALLEST, WRAPS, PAST_END, KIND, MORE_DIGITS, MORE_POWER, HEX_FRACTION, NO_DIGITS, NAMED)
RUST_PART = '## The Rust\n'


def shown_answer(result, nothing='none'):
    if result[0] in 'in':
        return shown((INTEGER if result[0] == 'i' else NUMBER, int(result[1:], 16)))
    return {'1': 'error, 1', '2': 'error, 2', 'z': 'zero divisor', 'e': nothing, 'p': 'panic'}[result]


def lua_table(head, keys, differences):
    """The differences in the order of the keys, which have a cause, where it is, and maybe more."""
    keys = [key for key in keys if key in differences.found]
    assert len(keys) == len(differences.found)
    lines = [head, '|---|---|---|---|---|---|']
    for key in keys:
        cause, where = key[:2]
        count, (_, (text, want, got)) = differences.found[key]
        nothing = 'none' if where == 'strings' else 'error'
        lines.append('| %s | %s | %d | `%s` | %s | %s |' % (cause, where, count, text, shown_answer(want, nothing), shown_answer(got, nothing)))
    return lines


def lua_part(texts, found, names):
    inside = [figure(text) for text in texts if figure(text)]
    total, more = sum(1 for _ in vectors()), sum(1 for _ in block_vectors(texts))
    lines = [
        '<!-- Written by cases.py. -->', '# Where Lua and the Rust differ from document 02, 1/12 and 5/12', '',
        'Of %d strings %d read as an integer, %d as a number, %d as neither. The operators have %d results on %d operands, and %d on the strings.' % (
            len(texts), sum(f[0] == INTEGER for f in inside), sum(f[0] == NUMBER for f in inside), len(texts) - len(inside), total, len(OPERANDS), more),
        'A difference is counted under one cause; `strings` counts strings, by what arithmetic takes them for. An error has the operand that it names',
        'beside it. Everything else agrees.', '', '## Lua', '',
    ]
    for version in VERSIONS:
        head = '| Lua %s | where | count | smallest | document 02 | Lua |' % version
        lines += lua_table(head, product(CAUSES, ('strings', *WHERE.values())), found[version]) + ['']
    lines += [
        '## Whom Lua names', '',
        'The results where both have an error. A message of Lua names an operand, a zero divisor, or neither: `error`.', '',
    ]
    for version in VERSIONS:
        head = '| Lua %s names | where | count | smallest | document 02 | Lua |' % version
        lines += lua_table(head, product(NAMING, WHERE.values(), ERRORS), names[version]) + ['']
    return '\n'.join(lines) + '\n'


def rust_part(differences):
    lines = [
        RUST_PART.strip(), '',
        '`read_integer` and `read_float` on the same strings, inside the set after the blanks are off. A string is counted under each of its causes.', '',
        '| The Rust | strings of the set | count | smallest | document 02 | `read_integer` | `read_float` |', '|---|---|---|---|---|---|---|',
    ]
    for cause in RUST_CAUSES:
        for inside in ('inside', 'outside'):
            if (cause, inside) in differences.found:
                count, (_, (text, want, got)) = differences.found[cause, inside]
                lines.append('| %s | %s | %d | `%s` | %s | %s | %s |' % (cause, inside, count, text, shown_answer(want), *map(shown_answer, got)))
    return '\n'.join(lines) + '\n'


def written_rust_part():
    kept = (content(DIFFERENCES) or b'').decode()
    return kept[kept.index(RUST_PART):] if RUST_PART in kept else ''


def main(words):
    folder = None
    if words[:1] == ['--rust']:
        folder, words = words[1], words[2:]
    if words not in ([], ['--check']):
        print(__doc__, file=sys.stderr)
        sys.exit(2)
    check = words == ['--check']
    strings = families()
    texts = [text for _, family in strings for text in family]
    held_by_python(texts)
    found, names = ({version: Differences() for version in VERSIONS} for _ in range(2))
    for version in VERSIONS:
        lua_strings(version, texts, found[version])
        lua_operators(version, texts, found[version], names[version])
    rust = written_rust_part()
    if folder:
        differences = Differences()
        rust_strings(folder, texts, differences)
        rust = rust_part(differences)
    page = lua_part(texts, found, names) + rust
    stdin, stdout = lists(strings)
    keep('strings', stdin, stdout, check)
    if not check:
        with open(DIFFERENCES, 'wb') as file:
            file.write(page.encode())
    elif content(DIFFERENCES) != page.encode():
        sys.exit('tools/figures/differences.md is stale: tools/figures/cases.py makes another')
    results = sum(1 for _ in vectors()) + sum(1 for _ in block_vectors(texts))
    print('%d strings, %d results%s' % (len(texts), results, ', and the Rust' if folder else ''))


main(sys.argv[1:])
