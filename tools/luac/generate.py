#!/usr/bin/env python3
"""Makes the programs of crates/runs, and what real Lua 5.3 answers to each; behind them stand the images of tools/whole with the Rust's answers.

    python3 tools/luac/generate.py               writes crates/runs/stdin and crates/runs/stdout
    python3 tools/luac/generate.py --check       writes nothing, and fails where one of the two is stale
    python3 tools/luac/generate.py --sources D   writes the Lua sources to folder D, one file each, and nothing else

Each program is compiled by luac5.3 and translated by luac_image.py; the real lua5.3 runs its source. The Rust's answers are taken from
tools/whole/answers.txt as they stand there. The machine of tools/oracle must give the same for each, or the script stops. It uses no clock and no
random numbers but its own, and gives the same bytes each time."""
import math
import os
import re
import subprocess
import sys
import tempfile

sys.dont_write_bytecode = True
HERE = os.path.dirname(os.path.realpath(__file__))
sys.path.insert(1, os.path.join(HERE, '..'))
import luac_image
from oracle.kept import checking, keep
from oracle.machine import Machine
from oracle.values import double
from programs import CASES

BUDGET = 1000000
# What crates/runs/src/main.rt reads of its standard input.
MOST_BYTES = 1048576
RUST = os.path.join(HERE, '..', 'whole', 'answers.txt')

# The number of document 01's table for an operand that a Lua operation doesn't take, and for a call of no function.
NUMBERS = {
    'ADD': 30, 'SUB': 31, 'MUL': 32, 'DIV': 33, 'IDIV': 34, 'MOD': 35, 'UNM': 36, 'BAND': 37, 'BOR': 38, 'BXOR': 39, 'BNOT': 40, 'SHL': 41,
    'SHR': 42, 'LT': 43, 'LE': 44, 'CALL': 50, 'FORPREP': 31, 'FORLOOP': 30,
}


def of(*operations):
    return {name: NUMBERS[name] for name in operations}


# Lua's messages, and the operations that raise them with their numbers: a zero divisor has one of its own, document 02's. Lua looks at all three
# controls of a loop in FORPREP; document 01 finds a limit that is no number in NumericForLoop.
BITWISE = of('BAND', 'BOR', 'BXOR', 'SHL', 'SHR', 'BNOT')
MESSAGES = (
    ('attempt to perform arithmetic on .*', of('ADD', 'SUB', 'MUL', 'DIV', 'IDIV', 'MOD', 'UNM')),
    ('attempt to perform bitwise operation on .*', BITWISE),
    ('number.* has no integer representation', BITWISE),
    ('attempt to divide by zero', {'IDIV': 45}),
    ("attempt to perform 'n%+0'", {'MOD': 46}),
    ('attempt to compare .*', of('LT', 'LE')),
    ('attempt to call .*', of('CALL')),
    ("'for' initial value must be a number", of('FORPREP')),
    ("'for' step must be a number", of('FORPREP')),
    ("'for' limit must be a number", of('FORLOOP')),
)


# The operations of the limits that Lua hasn't.
PAPER = {51: 'CALL', 52: 'CALL', 53: 'CLOSURE', 54: 'CLOSURE'}


def found(program, case, line, operations):
    """The one instruction of these operations at a source line: its name and place."""
    places = []
    for q, function in enumerate(program.functions):
        for p, word in enumerate(function.code):
            name = luac_image.operation(word)
            if function.lines[p] == line and name in operations:
                places.append((name, q, p))
    if len(places) != 1:
        raise SystemExit('%s: line %d has %d instructions of %s\n%s' % (case.name, line, len(places), ', '.join(operations), case.source))
    return places[0]


def expected(program, case, said):
    """What must be written: Lua's answer, in the documents' numbers."""
    if case.paper:
        number, line = case.paper
        _, q, p = found(program, case, line, (PAPER[number],))
        return '%d %d %d' % (number, q, p)
    what, _, rest = said.partition(' ')
    if what == 'ok':
        return ' '.join(['0'] + rest.split())
    line, _, message = rest.partition(' ')
    for pattern, numbers in MESSAGES:
        if re.fullmatch(pattern, message):
            name, q, p = found(program, case, int(line), numbers)
            return '%d %d %d' % (numbers[name], q, p)
    raise SystemExit('an error that no operation here raises: ' + rest)


def foretold(image):
    """What the oracle answers, in the same form."""
    m = Machine()
    if m.read(image)[0] or m.start()[0]:
        return 'refused'
    number, _, q, p, _ = m.run(BUDGET)
    if number:
        return '%d %d %d' % (number, q, p)
    return ' '.join(['0'] + [one_nan(m.shown(value)) for value in m.returned()])


def one_nan(shown):
    return 'b0037ff8000000000000' if shown.startswith('b003') and math.isnan(double(int(shown[4:], 16))) else shown


def write_sources(folder):
    os.makedirs(folder, exist_ok=True)
    for i, case in enumerate(CASES):
        with open(os.path.join(folder, '%d.lua' % (i + 1)), 'w') as file:
            file.write('-- %s\n' % case.name + case.source)


def translated(case):
    try:
        return luac_image.Program(luac_image.compiled(case.source.encode('latin-1')))
    except luac_image.Refused as refusal:
        raise SystemExit('%s: refused: %s\n%s' % (case.name, refusal, case.source))


def told(cases):
    """What Lua says of each program."""
    with tempfile.TemporaryDirectory() as folder:
        for i, case in enumerate(cases):
            with open(os.path.join(folder, '%d.lua' % (i + 1)), 'w') as file:
                file.write(case.source)
        lua = subprocess.run(['lua5.3', os.path.join(HERE, 'run.lua'), folder, str(len(cases))], stdout=subprocess.PIPE, check=True,
                             universal_newlines=True).stdout.splitlines()
    assert len(lua) == len(cases)
    return lua


def by_lua():
    """Name and image of each program, what Lua's answer is in the documents' numbers, and where it comes from."""
    for case, said in zip(CASES, told(CASES)):
        program = translated(case)
        yield case.name, program.image, expected(program, case, said), '%s  Lua:    %s' % (case.source, said)


def by_rust():
    """The same of the images that the Rust has answered: after each its answer, in a line that begins with `= `."""
    with open(RUST) as file:
        for part in file.read().split('# ')[1:]:
            name, _, rest = part.partition('\n')
            image, _, answer = rest.partition('= ')
            yield name, image, answer.rstrip('\n'), '  tools/whole/answers.txt'


def main():
    names = [case.name for case in CASES]
    assert len(set(names)) == len(names)
    if len(sys.argv) == 3 and sys.argv[1] == '--sources':
        write_sources(sys.argv[2])
        return
    check = checking(__doc__)
    images, answers, finished, wrong = [], [], 0, 0
    for name, image, wants, source in [*by_lua(), *by_rust()]:
        has = foretold(image)
        if has != wants:
            wrong += 1
            print('%s\n%s\n  wants:  %s\n  oracle: %s\n' % (name, source, wants, has))
        images.append('# %s\n%s' % (name, image))
        answers.append('# %s\n%s\n' % (name, wants))
        finished += wants.startswith('0')
    if wrong:
        raise SystemExit('%d of %d differ from the oracle' % (wrong, len(images)))
    stdin = ''.join(images)
    if len(stdin) > MOST_BYTES:
        raise SystemExit('%d bytes; crates/runs reads %d' % (len(stdin), MOST_BYTES))
    answers.append('%d programs: %d returned, %d raised an error\n' % (len(images), finished, len(images) - finished))
    keep('runs', stdin, ''.join(answers), check)
    print(answers[-1], end='')


if __name__ == '__main__':
    main()
