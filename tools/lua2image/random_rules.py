"""Rules made by chance, of functions within functions that use and assign what is outside of them.

    rule(seed)      a source, and its arguments as Lua writes them

A name stands for a figure, for any value, or for a function; a function takes how often it may still call, so every rule ends. From outer functions
they use constants, functions, inputs, a loop's variable, what is worked out and what is assigned. Names are few, so that one often hides another."""
from oracle.dice import Dice

FIGURE, ANY, FUNCTION = 'figure', 'any', 'function'
NAMES = {FIGURE: 'a b c d e'.split(), ANY: 'p q r s'.split(), FUNCTION: 'f g h k'.split()}
FIGURES = '0 1 2 3 -1 7 0.5 -0.0 2.5 1e999'.split()
OTHERS = ['nil', 'true', 'false', '""', '"x"', '"10"', '3', '0.5']
RESULTS = 'z1 z2 z3 z4 z5 z6 z7 z8'.split()
MOST_DEPTH, MOST_FUNCTIONS = 4, 20


class Name:
    """level: in how many functions it stands; is_fixed: whether it is never assigned."""

    def __init__(self, name, kind, level, is_fixed):
        self.name, self.kind, self.level, self.is_fixed = name, kind, level, is_fixed


class Maker:
    def __init__(self, seed):
        self.dice = Dice(seed)
        self.functions, self.labels = 0, 0
        self.lines, self.scopes, self.level = [], [[]], 0

    # ---- names

    def declare(self, kind, is_fixed):
        found = Name(self.dice.pick(NAMES[kind]), kind, self.level, is_fixed)
        self.scopes[-1].append(found)
        return found

    def visible(self, kind):
        """The names of a kind that aren't hidden."""
        latest = {name.name: name for scope in self.scopes for name in scope}
        return [name for name in latest.values() if name.kind == kind]

    def chosen(self, kind):
        """One of the visible names, most often one of an outer function; None where there is none."""
        names = self.visible(kind)
        outer = [name for name in names if name.level < self.level]
        if outer and not self.dice.chance(3):
            return self.dice.pick(outer).name
        return self.dice.pick(names).name if names else None

    # ---- expressions

    def figure(self, depth=2):
        if depth and self.dice.chance(3):
            return '(%s %s %s)' % (self.figure(depth - 1), self.dice.pick(['+', '-', '*']), self.figure(depth - 1))
        return not self.dice.chance(5) and self.chosen(FIGURE) or self.dice.pick(FIGURES)

    def value(self):
        if self.dice.chance(2):
            return self.figure()
        return not self.dice.chance(5) and self.chosen(ANY) or self.dice.pick(OTHERS)

    def condition(self):
        return self.dice.pick([
            lambda: '%s == %s' % (self.value(), self.value()), lambda: '%s < %s' % (self.figure(), self.figure()), self.value,
            lambda: 'not %s' % self.value(),
        ])()

    def call(self, name=None):
        """A call's value; in a function one call less is left."""
        name = name or self.chosen(FUNCTION)
        if name is None:
            return self.value()
        left = 'n - 1' if self.level else str(1 + self.dice.below(3))
        return '(%s(%s, %s))' % (name, left, self.value())

    # ---- statements

    def say(self, line):
        self.lines.append('  ' * len(self.scopes) + line)

    def block(self, count):
        self.scopes.append([])
        for _ in range(count):
            self.statement()
        self.scopes.pop()

    def constant(self):
        kind = self.dice.pick([FIGURE, ANY])
        literal = self.dice.pick(FIGURES if kind == FIGURE else OTHERS)
        self.say('local %s = %s' % (self.declare(kind, not self.dice.chance(3)).name, literal))

    def constants(self):
        values = [self.dice.pick(OTHERS) for _ in range(1 + self.dice.below(2))]
        names = [self.declare(ANY, True).name for _ in range(1 + self.dice.below(3))]
        self.say('local %s = %s' % (', '.join(names), ', '.join(values)))

    def nothing(self):
        self.say('local %s' % self.declare(ANY, not self.dice.chance(3)).name)

    def alias(self):
        kind = self.dice.pick([FIGURE, ANY, FUNCTION])
        names = self.visible(kind)
        if names:
            source = self.dice.pick(names).name
            self.say('local %s = %s' % (self.declare(kind, not self.dice.chance(3)).name, source))

    def computed(self):
        kind, value = self.dice.pick([
            lambda: (FIGURE, '%s and %s or %s' % (self.condition(), self.dice.pick(FIGURES), self.dice.pick(FIGURES))),
            lambda: (ANY, '%s == %s' % (self.value(), self.value())), lambda: (ANY, self.call()), lambda: (FIGURE, self.figure()),
        ])()
        self.say('local %s = %s' % (self.declare(kind, False).name, value))

    def assignment(self):
        kind = self.dice.pick([FIGURE, ANY])
        names = [name for name in self.visible(kind) if not name.is_fixed]
        if names:
            value = self.figure() if kind == FIGURE else self.value()
            self.say('%s = %s' % (self.dice.pick(names).name, value))

    def record(self, value=None):
        """What comes of a function, and of the rule, is kept in names that nothing hides; some of what a loop's passes give is kept of its first."""
        value = value or self.dice.pick([self.value, self.call, self.call])()
        name = 'y' if self.level else self.dice.pick(RESULTS)
        self.say('%s = %s' % (name, value) if self.dice.chance(2) else 'if %s == nil then %s = %s end' % (name, name, value))

    def function(self):
        if self.functions == MOST_FUNCTIONS or self.level == MOST_DEPTH:
            return
        self.functions += 1
        by_name = self.dice.chance(2)
        outer = self.declare(FUNCTION, True) if by_name else None
        name = outer.name if by_name else self.dice.pick(NAMES[FUNCTION])
        parameter = self.dice.pick(NAMES[ANY])
        self.say(('local function %s(n, %s)' if by_name else 'local %s = function(n, %s)') % (name, parameter))
        self.level += 1
        self.scopes.append([Name(parameter, ANY, self.level, False)])
        self.say('if n < 1 then return %s end' % self.value())
        self.say('local y')
        self.block(1 + self.dice.below(4))
        self.record()
        self.say('return y')
        self.scopes.pop()
        self.level -= 1
        self.say('end')
        if not by_name:
            self.scopes[-1].append(Name(name, FUNCTION, self.level, True))
        self.record(self.call(name))
        if self.dice.chance(2):
            self.assignment()
            self.record(self.call(name))

    def branch(self):
        self.say('if %s then' % self.condition())
        self.block(1 + self.dice.below(3))
        if self.dice.chance(2):
            self.say('else')
            self.block(1 + self.dice.below(3))
        self.say('end')

    def counting(self):
        """A `for`, some of whose passes are left in the middle."""
        controls = self.dice.pick(['1, %d', '%d, 1, -1', '0.5, %d']) % (1 + self.dice.below(3))
        self.scopes.append([])
        self.say('for %s = %s do' % (self.declare(FIGURE, False).name, controls))
        self.turn()
        self.scopes.pop()
        self.say('end')

    def turn(self):
        label = self.labels = self.labels + 1
        self.scopes.append([])
        self.statement()
        self.say('if %s then goto next%d end' % (self.condition(), label))
        # no local may begin between the goto and its label
        self.say('do')
        self.block(1 + self.dice.below(3))
        self.say('end')
        self.say('::next%d::' % label)
        self.scopes.pop()

    def looping(self):
        label = self.labels = self.labels + 1
        self.say('local turns%d = 0' % label)
        if self.dice.chance(2):
            self.say('while turns%d < %d do' % (label, 1 + self.dice.below(3)))
            self.say('turns%d = turns%d + 1' % (label, label))
            self.turn()
            self.say('end')
            return
        self.say('repeat')
        self.say('turns%d = turns%d + 1' % (label, label))
        self.scopes.append([])
        for _ in range(1 + self.dice.below(3)):
            self.statement()
        self.say('until turns%d > 2 or %s' % (label, self.dice.pick([self.condition, self.call])()))
        self.scopes.pop()

    def statement(self):
        deep = len(self.scopes) > 6
        self.dice.pick([
            self.constant, self.constant, self.constants, self.nothing, self.alias, self.alias, self.computed, self.computed, self.assignment,
            self.assignment, self.record, self.record, self.record, self.record, self.function, self.function, self.function,
            *([] if deep else [self.branch, self.counting, self.looping]),
        ])()


def rule(seed):
    maker = Maker(seed)
    arguments = [maker.dice.pick(FIGURES) for _ in range(maker.dice.below(3))]
    if arguments:
        names = [maker.declare(FIGURE, False).name for _ in arguments]
        maker.say('local %s = ...' % ', '.join(names))
    maker.say('local %s' % ', '.join(RESULTS))
    for _ in range(6 + maker.dice.below(8)):
        maker.statement()
    maker.say('return %s, %s' % (', '.join(RESULTS), maker.call()))
    return '\n'.join(maker.lines) + '\n', arguments
