#!/usr/bin/env python3
"""Programs of closures made by chance, and the oracle held against real Lua 5.3 on as many of them as one likes.

    program(seed)                                     the lines of one
    python3 tools/luac/closures.py [COUNT [FIRST]]    compares COUNT programs (1,500) from seed FIRST on (100000); nothing is written

Variables of every function within are read and set from every other that sees them, in loops, branches and blocks that close them, by functions
that are made, kept, handed on and called when what made them is gone. Names are few, so that one often hides another. A function takes how often
it may still call, so every program ends. No two functions are compared: Lua 5.3 may hand one closure out twice.

A program that passes a limit which Lua hasn't (16 activations, 64 closures, 128 cells, 8 variables from outside) has no answer of Lua's; the
command counts those. Every other must answer what lua5.3 does, the error's number and place too."""
import os
import sys

sys.dont_write_bytecode = True
HERE = os.path.dirname(os.path.realpath(__file__))
sys.path.insert(1, os.path.join(HERE, '..'))
from oracle.dice import Dice

FIGURE, ANY, FUNCTION, MAKER = 'figure', 'any', 'function', 'maker'
NAMES = {FIGURE: 'a b c d e'.split(), ANY: 'p q r'.split(), FUNCTION: 'f g h k'.split(), MAKER: 'make new'.split()}
RESULTS = 'z1 z2 z3'.split()
OTHERS = ['nil', 'true', 'false', '""', '"x"', '"town"', '0.5', '-0.0', '7', '1e999']
MOST_LEVEL, MOST_FUNCTIONS, MOST_SCOPES, MOST_LINES = 4, 14, 7, 90


class Name:
    """level: in how many functions it stands. pair: whether a maker makes two functions."""

    def __init__(self, name, kind, level):
        self.name, self.kind, self.level, self.pair = name, kind, level, False


class Maker:
    def __init__(self, seed):
        self.dice = Dice(seed)
        self.functions, self.labels, self.loops = 0, 0, 0
        self.lines, self.scopes, self.level = [], [[]], 0
        self.fails = self.dice.chance(4)

    # ---- names

    def declare(self, kind):
        """A name for a local; it is in scope once `enter` says so."""
        return Name(self.dice.pick(NAMES[kind]), kind, self.level)

    def enter(self, *names):
        self.scopes[-1] += names

    def visible(self, kind):
        latest = {name.name: name for scope in self.scopes for name in scope}
        return [name for name in latest.values() if name.kind == kind]

    def chosen(self, kind):
        """A visible name, more often one of an outer function; None where there is none."""
        names = self.visible(kind)
        outer = [name for name in names if name.level < self.level]
        if outer and not self.dice.chance(3):
            return self.dice.pick(outer).name
        return self.dice.pick(names).name if names else None

    # ---- expressions

    def literal(self):
        return str(self.dice.below(20) - 5)

    def figure(self, depth=1):
        if depth and self.dice.chance(2):
            operator = self.dice.pick(['+', '-', '*', '~', '&'])
            return '(%s %s %s)' % (self.figure(depth - 1), operator, self.figure(depth - 1))
        return not self.dice.chance(4) and self.chosen(FIGURE) or self.literal()

    def value(self):
        return not self.dice.chance(3) and self.chosen(ANY) or self.dice.pick(OTHERS)

    def condition(self):
        if self.dice.chance(3):
            return self.value()
        return '%s %s %s' % (self.figure(), self.dice.pick(['<', '<=', '==', '~=', '>']), self.figure())

    def left(self):
        return 'n - 1' if self.level else str(1 + self.dice.below(3))

    def call(self, name=None):
        name = name or self.chosen(FUNCTION)
        if name is None:
            return self.figure()
        return '(%s(%s, %s))' % (name, self.left(), self.figure())

    # ---- statements

    def say(self, line):
        self.lines.append('  ' * (len(self.scopes) - 1) + line)

    def block(self, count):
        self.scopes.append([])
        for _ in range(count):
            self.statement()
        self.scopes.pop()

    def local(self):
        kind = self.dice.pick([FIGURE, FIGURE, ANY])
        name = self.declare(kind)
        self.say('local %s = %s' % (name.name, self.figure() if kind == FIGURE else self.value()))
        self.enter(name)

    def assignment(self):
        kind = self.dice.pick([FIGURE, FIGURE, FIGURE, ANY, FUNCTION])
        name = self.chosen(kind)
        if name is None:
            return
        if kind == FUNCTION:
            self.say('%s = %s' % (name, self.chosen(FUNCTION)))
        else:
            self.say('%s = %s' % (name, self.dice.pick([self.figure, self.call])() if kind == FIGURE else self.value()))

    def swap(self):
        one, two = self.chosen(FIGURE), self.chosen(FIGURE)
        if one and two and one != two:
            self.say('%s, %s = %s, %s + 1' % (one, two, two, one))

    def record(self):
        """What comes of it is kept in the rule's results, as upvalues where a function does it."""
        name = self.dice.pick(RESULTS)
        self.say('%s = (%s * 31 + %s) %% 1000003' % (name, name, self.dice.pick([self.figure, self.call, self.call])()))

    def body(self):
        """Of a function of n and x."""
        self.level += 1
        self.scopes.append([Name('x', FIGURE, self.level)])
        self.say('if n < 1 then return %s end' % self.dice.pick(['x', self.figure()]))
        for _ in range(1 + self.dice.below(4)):
            self.statement()
        if self.dice.chance(2):
            name = self.chosen(FIGURE)
            self.say('%s = %s + %s' % (name, name, self.figure()))
        self.say('return %s' % self.dice.pick([self.figure, self.figure, self.call])())
        self.scopes.pop()
        self.level -= 1
        self.say('end')

    def may_make(self):
        self.functions += 1
        return self.functions <= MOST_FUNCTIONS and self.level < MOST_LEVEL

    def function(self):
        if not self.may_make():
            return
        name = self.declare(FUNCTION)
        how = self.dice.below(3)
        if how == 0:
            self.say('local function %s(n, x)' % name.name)
            self.enter(name)
            self.body()
        elif how == 1:
            # it sees itself by a variable that is set later
            self.say('local %s' % name.name)
            self.say('%s = function(n, x)' % name.name)
            self.enter(name)
            self.body()
        else:
            self.say('local %s = function(n, x)' % name.name)
            self.body()
            self.enter(name)

    def again(self):
        """A function variable becomes another function."""
        name = self.chosen(FUNCTION)
        if name and self.may_make():
            self.say('%s = function(n, x)' % name)
            self.body()

    def maker(self):
        """A function that makes one or two functions over its own variables."""
        if not self.may_make() or not self.may_make():
            return
        name, pair = self.declare(MAKER), self.dice.chance(2)
        name.pair = pair
        self.say('local function %s(n, x)' % name.name)
        self.level += 1
        self.scopes.append([Name('x', FIGURE, self.level)])
        for _ in range(1 + self.dice.below(3)):
            self.dice.pick([self.local, self.assignment, self.swap])()
        if pair:
            self.say('local function one(n, x)')
            self.body()
            self.scopes[-1].append(Name('one', FUNCTION, self.level))
        if self.dice.chance(3):
            made = Name('two', FUNCTION, self.level)
            self.say('local two = function(n, x)')
            self.body()
            self.scopes[-1].append(made)
            self.say('%s = %s' % (self.chosen(FIGURE), self.figure()))
            self.say('return %stwo' % ('one, ' if pair else ''))
        else:
            self.say('return %sfunction(n, x)' % ('one, ' if pair else ''))
            self.body()
        self.scopes.pop()
        self.level -= 1
        self.say('end')
        self.enter(name)
        self.made(name)

    def made(self, name=None):
        makers = self.visible(MAKER)
        if not name and not makers:
            return
        name = name or self.dice.pick(makers)
        names = [self.declare(FUNCTION) for _ in range(1 + name.pair)]
        self.say('local %s = %s(%s, %s)' % (', '.join(one.name for one in names), name.name, self.left(), self.figure()))
        self.enter(*names)

    def branch(self):
        self.say('if %s then' % self.condition())
        self.block(1 + self.dice.below(3))
        if self.dice.chance(2):
            self.say('else')
            self.block(1 + self.dice.below(2))
        self.say('end')

    def escape(self):
        """A function over what is here goes to a variable further out."""
        names = [name for scope in self.scopes[:-1] for name in scope if name.kind == FUNCTION]
        seen = {name.name for name in self.visible(FUNCTION)}
        names = [name for name in names if name.name in seen and name in self.visible(FUNCTION)]
        if names and self.may_make():
            self.say('%s = function(n, x)' % self.dice.pick(names).name)
            self.body()

    def turn(self, label):
        """The inside of a loop: what it makes is closed at its end, by what leaves it, or by going on with the next."""
        self.local()
        self.dice.pick([self.escape, self.escape, self.statement])()
        how = self.dice.below(4)
        if how == 0:
            self.say('if %s then break end' % self.condition())
        elif how == 1:
            self.say('if %s then goto next%d end' % (self.condition(), label))
        self.say('do')
        self.block(1 + self.dice.below(2))
        self.say('end')
        if how == 1:
            self.say('::next%d::' % label)

    def loop(self):
        self.loops += 1
        label = self.labels = self.labels + 1
        how = self.dice.below(4)
        if how < 2:
            name = self.declare(FIGURE)
            controls = self.dice.pick(['1, 3', '3, 1, -1', '1, 2', '2, 6, 2'])
            self.say('for %s = %s do' % (name.name, controls))
            self.scopes.append([name])
            self.scopes.append([])
            self.turn(label)
            del self.scopes[-2:]
            self.say('end')
            return
        count = Name('i%d' % label, FIGURE, self.level)
        self.say('local %s = 0' % count.name)
        self.say('while %s < %d do' % (count.name, 1 + self.dice.below(3)) if how == 2 else 'repeat')
        self.scopes.append([])
        self.say('%s = %s + 1' % (count.name, count.name))
        if how == 2:
            self.turn(label)
        else:
            self.local()
            self.dice.pick([self.escape, self.statement])()
        self.scopes.pop()
        # a `repeat`'s condition sees its locals: one that a function holds is closed behind it
        self.say('end' if how == 2 else 'until %s > 2 or %s' % (count.name, self.condition()))

    def do(self):
        self.say('do')
        self.scopes.append([])
        self.local()
        self.escape()
        self.statement()
        self.scopes.pop()
        self.say('end')

    def failure(self):
        """What raises an error, once: it is alone in its line."""
        if not self.fails or not self.dice.chance(2):
            return
        self.fails = False
        name = self.dice.pick(['u', 'v'])
        self.say('local %s = %s' % (name, self.dice.pick(['nil', 'true', '"x"'])))
        self.say('local function fail(n)')
        self.level += 1
        self.scopes.append([])
        self.say(self.dice.pick(['%s = %s + 1', 'local y = -%s', 'if %s < 3 then return end', '%s(n)', 'local y = 3 // %s', '%s = n | %s']).replace('%s', name))
        self.scopes.pop()
        self.level -= 1
        self.say('end')
        self.say(self.dice.pick(['fail(1)', 'if %s then fail(2) end' % self.condition()]))

    def statement(self):
        if len(self.lines) > MOST_LINES:
            return self.record()
        nested = [] if len(self.scopes) > MOST_SCOPES or self.loops > 5 else [self.branch, self.loop, self.loop, self.do]
        self.dice.pick([
            self.local, self.local, self.assignment, self.assignment, self.assignment, self.swap, self.record, self.record, self.record, self.function,
            self.function, self.again, self.maker, self.made, self.made, self.failure, *nested,
        ])()


def program(seed, least=5, more=7):
    """least, more: how many statements its main program has at least, and by how many there may be more."""
    maker = Maker(seed)
    maker.say('local %s = 1, 2, 3' % ', '.join(RESULTS))
    for _ in range(3):
        maker.local()
    for _ in range(least + maker.dice.below(more)):
        maker.statement()
    for _ in range(2):
        maker.record()
    figures = [name.name for name in maker.visible(FIGURE)][:4]
    others = [name.name for name in maker.visible(ANY)][:2]
    maker.say('return %s' % ', '.join([*RESULTS, *figures, *others]))
    return maker.lines


# ---- the oracle and Lua

# Answers that Lua can't give: limits of activations, registers, entries and cells, and the budget.
LIMITS = ('51', '52', '53', '54', '70')


def compared(first, count):
    """How many programs agree, and how many pass a limit; stops at the first that differs."""
    from generate import expected, foretold, luac_image, told
    from programs import Case
    cases, programs, limited = [], [], 0
    for seed in range(first, first + count):
        case = Case('closures %d' % seed, '\n'.join(program(seed)) + '\n')
        try:
            programs.append(luac_image.Program(luac_image.compiled(case.source.encode())))
            cases.append(case)
        except luac_image.Refused as refusal:
            if 'variables from outside' not in str(refusal) and 'functions; an image' not in str(refusal):
                raise SystemExit('%s: %s\n%s' % (case.name, refusal, case.source))
            limited += 1
    for case, made, said in zip(cases, programs, told(cases)):
        has = foretold(made.image)
        if has.split()[0] in LIMITS:
            limited += 1
            continue
        wants = expected(made, case, said)
        if has != wants:
            raise SystemExit('%s\n%s  Lua:    %s\n  wants:  %s\n  oracle: %s' % (case.name, case.source, said, wants, has))
    return count - limited, limited


if __name__ == '__main__':
    numbers = [int(word) for word in sys.argv[1:]]
    count, first = (numbers + [1500, 100000][len(numbers):])[:2]
    print('%d programs agree with Lua, %d pass a limit that Lua has not' % compared(first, count))
