#!/usr/bin/env python3
"""Random rules with inputs, run by ./deletion with arguments and by real Lua 5.3 with the same values.

    python3 tools/sessions/arguments.py

300 programs, the same each time, are translated by tools/lua2image. What ./deletion writes must be what lua5.3 returns, bit for bit, NaNs being one;
or where Lua raises an error, an error's number and place that its message and line allow, and almost always that is just one. The exit status has to
fit. It fails where a program differs, and shows it.

Left out is what differs by design (tools/luac/README.md): strings here are no figures; at most one control of a `for` isn't a small integer, and that
one is an input as it came, so no NaN, and as a step not 0; and no more than 16 activations are live."""
import concurrent.futures
import os
import re
import shlex
import shutil
import subprocess
import sys
import tempfile

sys.dont_write_bytecode = True
HERE = os.path.dirname(os.path.realpath(__file__))
TOOLS = os.path.dirname(HERE)
COMMAND = os.path.join(os.path.dirname(TOOLS), 'deletion')
sys.path[1:1] = [os.path.join(TOOLS, 'lua2image'), os.path.join(TOOLS, 'luac'), TOOLS]
import luac_image
from generate import MESSAGES, one_nan
from oracle.dice import Dice
from translation import Refused, translated

COUNT = 300
# Neither those that finish nor those that raise an error may be fewer.
GOOD_SHARE = COUNT // 4
RUN_LUA = os.path.join(TOOLS, 'luac', 'run.lua')

# ---- arguments

INTEGERS = [0, 1, -1, 2, 3, -3, 5, 7, 10, 31, 63, 64, 100, 365, 2555, 17531, 20407, -1000, 2**31, 2**32 - 1, 2**53, 2**53 + 1, -2**53 - 1, 2**62,
            2**63 - 1, -2**63, 1 - 2**63]
# Numbers as words; Lua reads them as document 02 does.
NUMBERS = ['0.0', '-0.0', '0.5', '-2.5', '1.0', '2.', '.25', '1e3', '-7.25', '1e22', '-1e22', '1e-22', '0.1', '3.14159', '2.5E-1', '1e18',
           '999999999999999.0', '4503599627370490.', '-100.0', '64.0']
INTEGER, NUMBER, OTHER = 'integer', 'number', 'other'


class Argument:
    """word: as ./deletion is told; lua: the same as an expression; kind: what a rule can do with it."""

    def __init__(self, word, lua, kind):
        self.word, self.lua, self.kind = word, lua, kind


def argument(dice):
    form = dice.below(10)
    if form < 5:
        n = dice.pick(INTEGERS)
        # In hexadecimal both wrap around. Lua would make a number of the digits of the smallest integer.
        wrapped = '0x%x' % (n % 2**64)
        return Argument(dice.pick(['%d' % n, '%d' % n, '%+d' % n, ' %d ' % n, wrapped, wrapped.upper()]), wrapped, INTEGER)
    if form < 8:
        text = dice.pick(NUMBERS)
        return Argument(text, text, NUMBER)
    text = dice.pick(['nil', 'nil', 'true', 'false'])
    return Argument(text, text, OTHER)


# ---- rules

ORDER = ['<', '<=', '>', '>=']
LITERALS = {INTEGER: ['0', '1', '2', '3', '-1', '7', '10', '365', '64', '0x7fffffffffffffff'], NUMBER: ['0.5', '2.0', '-1.5', '1e10', '0.1'],
            OTHER: ['nil', 'true', 'false', '"keep"', '"release"', '""']}


class Name:
    def __init__(self, text, kind):
        self.text, self.kind = text, kind


class Helper:
    """deep: whether its first parameter says how often it calls itself; kinds: those of its other parameters; result: that of its first one."""

    def __init__(self, name, deep, kinds, result):
        self.name, self.deep, self.kinds, self.result = name, deep, kinds, result


class Maker:
    """Makes a rule for the kinds of its arguments: an operand mostly is of a kind that its operator takes. A line has one instruction that can raise
    an error, but for a few. Helpers use from outside the constants and the helpers before them."""

    def __init__(self, dice, arguments, inputs):
        self.dice = dice
        kinds = [one.kind for one in arguments] + [OTHER] * (inputs - len(arguments))
        self.inputs = [Name('abcdefgh'[i], kind) for i, kind in enumerate(kinds)]
        # Those that the controls of loops may be: they are never assigned.
        self.bounds = self.inputs[:3]
        self.constants, self.helpers, self.names = [], [], []
        self.lines, self.indent, self.inside, self.made = [], '', False, 0

    def say(self, line):
        self.lines.append(self.indent + line)

    def fresh(self, kind, letter='v'):
        self.made += 1
        return Name('%s%d' % (letter, self.made), kind)

    # ---- operands

    def operand(self, kinds):
        """One of these kinds, or now and then of any."""
        if self.dice.chance(16):
            kinds = (INTEGER, NUMBER, OTHER)
        fit = [name for name in self.names + self.constants if name.kind in kinds]
        if not fit or self.dice.chance(5):
            kind = self.dice.pick(kinds)
            return Name(self.dice.pick(LITERALS[kind]), kind)
        return self.dice.pick(fit)

    def figure(self):
        return self.operand((INTEGER, NUMBER))

    def any(self):
        return self.operand((INTEGER, NUMBER, OTHER))

    def bits(self):
        return self.operand((INTEGER,))

    def sum(self):
        """An expression of one operator, and the kind of its value."""
        operator = self.dice.pick(['+', '-', '*', '+', '-', '*', '/', '//', '%', '&', '|', '~', '<<', '>>', 'minus', 'not'])
        if operator in ('&', '|', '~', '<<', '>>'):
            return '%s %s %s' % (self.bits().text, operator, self.bits().text), INTEGER
        if operator == 'not':
            return '~%s' % self.bits().text, INTEGER
        left, right = self.figure(), self.figure()
        if operator == 'minus':
            return '- %s' % left.text, left.kind
        if operator in ('//', '%') and self.dice.chance(2):
            right = Name(self.dice.pick(['2', '3', '-7', '10', '0.5', '-4.0']), NUMBER)
            return '%s %s %s' % (left.text, operator, right.text), NUMBER
        kind = INTEGER if operator != '/' and left.kind == right.kind == INTEGER else NUMBER
        return '%s %s %s' % (left.text, operator, right.text), kind

    def condition(self):
        form = self.dice.below(8)
        if form < 4:
            return '%s %s %s' % (self.figure().text, self.dice.pick(ORDER), self.figure().text)
        if form < 6:
            return '%s %s %s' % (self.any().text, self.dice.pick(['==', '~=']), self.any().text)
        if form < 7:
            return '%s%s' % (self.dice.pick(['', 'not ']), self.any().text)
        return '%s %s %s < %s' % (self.any().text, self.dice.pick(['and', 'or']), self.figure().text, self.figure().text)

    # ---- statements

    def worked_out(self):
        text, kind = self.sum()
        if self.dice.chance(8):
            text, kind = '(%s) %s %s' % (text, self.dice.pick('+-*'), self.figure().text), NUMBER
        made = self.fresh(kind)
        self.say('local %s = %s' % (made.text, text))
        self.names.append(made)

    def chosen(self):
        kind = self.dice.pick([INTEGER, NUMBER])
        made = self.fresh(kind)
        self.say('local %s = %s and %s or %s' % (made.text, self.any().text, self.dice.pick(LITERALS[kind]), self.operand((kind,)).text))
        self.names.append(made)

    def verdict(self):
        made = self.fresh(OTHER)
        self.say('local %s = %s' % (made.text, self.dice.pick([self.condition, lambda: self.any().text, lambda: 'not ' + self.any().text])()))
        self.names.append(made)

    def assigned(self):
        """A value of the same kind, so that it doesn't matter whether this is passed."""
        text, kind = self.sum()
        names = [name for name in self.names if name.kind == kind and name not in self.bounds]
        if names:
            self.say('%s = %s' % (self.dice.pick(names).text, text))

    def called(self):
        # Not in a helper's loops: the budget has to do for all of it.
        if not self.helpers or self.inside and len(self.indent) > 2:
            return
        helper = self.dice.pick(self.helpers)
        given = ['3'] * helper.deep + [self.operand((kind,)).text for kind in helper.kinds]
        if self.dice.chance(15):
            given.pop()
        made = [self.fresh(helper.result), self.fresh(OTHER)]
        self.say('local %s = %s(%s)' % (', '.join(one.text for one in made), helper.name, ', '.join(given)))
        self.names += made

    def no_function(self):
        if self.dice.chance(12):
            self.say('local %s = %s(1)' % (self.fresh(OTHER).text, self.dice.pick(self.names).text))

    def block(self, count):
        kept, self.indent = len(self.names), self.indent + '  '
        for _ in range(count):
            self.statement()
        self.indent = self.indent[2:]
        del self.names[kept:]

    def branch(self):
        self.say('if %s then' % self.condition())
        self.block(1 + self.dice.below(3))
        if self.dice.chance(2):
            self.say('else')
            self.block(1 + self.dice.below(3))
        self.say('end')

    def controls(self):
        """Of a `for`: one of them may be anything, but for a step of 0."""
        small = str(self.dice.below(6))
        form = self.dice.below(6 if self.bounds else 3)
        if form < 3:
            return [small + ', 5', '1, ' + small, small + ', 0, -2'][form]
        fit = [name for name in self.bounds if name.kind != OTHER]
        one = self.dice.pick(self.bounds if self.dice.chance(4) or not fit else fit).text
        if form < 5:
            return [one + ', ' + small, small + ', ' + one][form - 3]
        step = self.fresh(OTHER).text
        self.say('local %s = %s' % (step, one))
        self.say('if %s == 0 then %s = 2 end' % (step, step))
        return '1, 4, ' + step

    def counted(self):
        turns, index = self.fresh(INTEGER, 'n'), self.fresh(NUMBER, 'i')
        self.say('local %s = 0' % turns.text)
        self.say('for %s = %s do' % (index.text, self.controls()))
        kept = len(self.names)
        # Not one of the names, so that nothing else assigns it.
        self.say('  %s = %s + 1' % (turns.text, turns.text))
        self.say('  if %s > 5 then break end' % turns.text)
        self.names.append(index)
        self.block(1 + self.dice.below(3))
        del self.names[kept:]
        self.say('end')

    def repeated(self):
        turns = self.fresh(INTEGER, 'n')
        self.say('local %s = 0' % turns.text)
        most = 1 + self.dice.below(5)
        form = self.dice.below(2)
        self.say('while %s < %d do' % (turns.text, most) if form else 'repeat')
        self.say('  %s = %s + 1' % (turns.text, turns.text))
        self.block(1 + self.dice.below(3))
        self.say('end' if form else 'until %s > %d' % (turns.text, most))

    def statement(self):
        many = [self.worked_out] * 5 + [self.chosen, self.verdict, self.assigned, self.assigned, self.assigned, self.called, self.called]
        if len(self.indent) < 6:
            many += [self.branch, self.branch, self.counted, self.repeated, self.no_function]
        self.dice.pick(many)()

    # ---- functions

    def constant(self):
        kind = self.dice.pick([INTEGER, NUMBER, OTHER])
        made = self.fresh(kind, 'k')
        self.say('local %s = %s' % (made.text, self.dice.pick(LITERALS[kind])))
        self.constants.append(made)

    def helper(self):
        """It may call those before it, and count down while it calls itself: three of them, four deep each, keep within 16 activations."""
        name, outside = 'f%d' % len(self.helpers), (self.names, self.bounds)
        kinds = [self.dice.pick([INTEGER, INTEGER, NUMBER, OTHER]) for _ in range(1 + self.dice.below(3))]
        parameters = [self.fresh(kind, 'p') for kind in kinds]
        self.names, self.bounds, self.indent, self.inside = list(parameters), [], '  ', True
        deep = self.dice.chance(3)
        self.lines.append('local function %s(%s)' % (name, ', '.join(['left'] * deep + [one.text for one in parameters])))
        for _ in range(1 + self.dice.below(3)):
            self.statement()
        self.worked_out()
        result = self.names[-1]
        if deep:
            self.say('if left > 0 then')
            self.say('  local again = %s(%s)' % (name, ', '.join(['left - 1'] + [self.operand((kind,)).text for kind in kinds])))
            self.say('  return again, left')
            self.say('end')
        self.say('return %s, %s' % (result.text, self.any().text))
        self.lines.append('end')
        (self.names, self.bounds), self.indent, self.inside = outside, '', False
        self.helpers.append(Helper(name, deep, kinds, result.kind))

    def rule(self):
        self.say('local %s = ...' % ', '.join(name.text for name in self.inputs))
        for _ in range(self.dice.below(4)):
            self.constant()
        for _ in range(self.dice.below(4)):
            self.helper()
        self.names = list(self.inputs)
        for _ in range(3 + self.dice.below(6)):
            self.statement()
        returned = [self.dice.pick(self.names).text for _ in range(1 + self.dice.below(4))] + [name.text for name in self.names[-3:]]
        self.say('return ' + ', '.join(returned))
        return '\n'.join(self.lines) + '\n'


class Program:
    def __init__(self, seed):
        dice = Dice(seed)
        inputs = 1 + dice.below(8)
        self.arguments = [argument(dice) for _ in range(inputs if dice.chance(2) else dice.below(inputs + 1))]
        self.source = Maker(dice, self.arguments, inputs).rule()

    def for_lua(self):
        """The source as the body of a function that is called; its lines keep their numbers."""
        return 'local function rule(...) %send return rule(%s)' % (self.source, ', '.join(one.lua for one in self.arguments))


# ---- answers

def translation(program):
    try:
        return translated(program.source.encode())
    except Refused as refusal:
        raise SystemExit('%s  refused by lua2image: %s' % (program.source, refusal))


def by_lua(programs, folder):
    """What lua5.3 says of each, in run.lua's words."""
    for i, program in enumerate(programs):
        with open(os.path.join(folder, '%d.lua' % (i + 1)), 'w') as file:
            file.write(program.for_lua())
    done = subprocess.run(['lua5.3', RUN_LUA, folder, str(len(programs))], stdout=subprocess.PIPE, check=True, universal_newlines=True)
    said = done.stdout.splitlines()
    assert len(said) == len(programs)
    return said


def by_machine(program, file):
    """The exit status of ./deletion, and the lines that it writes."""
    words = [one.word for one in program.arguments]
    done = subprocess.run([COMMAND, file, *words], stdout=subprocess.PIPE, stderr=subprocess.STDOUT, universal_newlines=True)
    return done.returncode, [one_nan(line) for line in done.stdout.splitlines()]


def allowed(functions, said):
    """The answers that fit an error of Lua's: number and place of each instruction in its line that raises its message."""
    line, _, message = said.partition(' ')[2].partition(' ')
    numbers = next((numbers for pattern, numbers in MESSAGES if re.fullmatch(pattern, message)), {})
    return ['f0%02x........%02x%04x..' % (numbers[luac_image.operation(word)], q, p)
            for q, function in enumerate(functions) for p, word in enumerate(function.code)
            if function.lines[p] == int(line) and luac_image.operation(word) in numbers]


def agrees(functions, said, status, lines):
    if said.startswith('ok'):
        return status == 0 and lines[0].startswith('f000') and lines[1:] == said.split()[1:]
    return status == 1 and len(lines) == 1 and any(re.fullmatch(answer, lines[0]) for answer in allowed(functions, said))


def compared(programs, folder):
    """Each program, what Lua says of it and what the machine answers, and whether that is the same."""
    rules = [translation(program) for program in programs]
    files = [os.path.join(folder, '%d.image' % i) for i in range(len(rules))]
    for rule, file in zip(rules, files):
        with open(file, 'w') as image:
            image.write(rule.image)
    said = by_lua(programs, folder)
    with concurrent.futures.ThreadPoolExecutor(os.cpu_count()) as pool:
        answers = list(pool.map(by_machine, programs, files))
    return [(program, lua, answer, agrees(rule.functions, lua, *answer)) for program, rule, lua, answer in zip(programs, rules, said, answers)]


def left_out():
    print('sessions: NOT TESTED: there is no lua5.3 here, so no programs with arguments were run beside it')
    return 1 if os.environ.get('CI') == 'true' else 0


def main():
    if not (shutil.which('lua5.3') and shutil.which('luac5.3')):
        return left_out()
    with tempfile.TemporaryDirectory() as folder:
        found = compared([Program(seed) for seed in range(COUNT)], folder)
    for program, lua, answer, same in found:
        if not same:
            words = ' '.join(shlex.quote(one.word) for one in program.arguments)
            print('%s  arguments: %s\n  Lua:       %s\n  ./deletion: status %d, %s\n' % (program.source, words, lua, answer[0], ' '.join(answer[1])))
    differ = sum(not same for *_, same in found)
    finished = sum(lua.startswith('ok') for _, lua, _, _ in found)
    print('sessions: %d programs with arguments, %s lua5.3: %d finished, %d raised an error'
          % (COUNT, '%d of them not as in' % differ if differ else 'all as in', finished, COUNT - finished))
    return 1 if differ or not GOOD_SHARE <= finished <= COUNT - GOOD_SHARE else 0


if __name__ == '__main__':
    sys.exit(main())
