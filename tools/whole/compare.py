"""Holds whole runs of the Rust original against the oracle, and writes what the repository keeps.

    compare.py FOLDER

FOLDER has the two builds of the Rust, `checked` and `released`; make.sh puts them there. Written into it: differences.md (how many runs agree, and
why the others don't) and answers.txt (small images with the Rust's own answers).

Where the answers to an image differ, the Rust carries out every instruction of the oracle's run once more, each from the oracle's own state. Each
time that the two part there must be a rule that says why, or the script stops; so a difference that nobody knows of can't hide behind one that is
known. What is written is the same each time."""
import os
import subprocess
import sys
from collections import Counter, namedtuple

sys.dont_write_bytecode = True
HERE = os.path.dirname(os.path.realpath(__file__))
sys.path[1:1] = [os.path.join(HERE, '..'), os.path.join(HERE, '..', 'vectors')]
import texts
from causes import RULES, shown_vector
from generate import CARRIED, MANY, images
from oracle.answers import DONE, NO_ENTRY, RUNNING, TOO_DEEP, TOO_WIDE, UNFIT_OPERAND, ZERO_DIVISOR
from oracle.image import printed
from oracle.kept import ROOT
from oracle.machine import Machine
from oracle.rules import BINARY, COMPARISONS, OPERATIONS
from oracle.values import FUNCTION, INTEGER, NUMBER, ONE_NAN, STRING, double

BUILDS = ('checked', 'released')
BUDGET, LONG = 1000000, 3000
LUA, SMALL, SHORT, FIGURES = 'real Lua', 'small', 'short', 'figures'
RANDOM = 'rust whole '
# The bytes that the kept images take of crates/runs/stdin, which the program there reads into 1,048,576; those of figures take their own.
ROOM, ROOM_OF_FIGURES = 40000, 2000

# Operations by the names that reference.py and causes.py have for them.
NAMES = {
    'Add': 'add', 'Sub': 'subtract', 'Mul': 'multiply', 'Div': 'float_divide', 'IDiv': 'floor_divide', 'Mod': 'modulo', 'Minus': 'negate',
    'BitNot': 'bitwise_not', 'BitAnd': 'bitwise_and', 'BitOr': 'bitwise_or', 'BitXor': 'bitwise_xor', 'ShiftLeft': 'shift_left',
    'ShiftRight': 'shift_right', 'Eq': 'is_equal', 'Less': 'less_than', 'LessEq': 'less_equal', 'NumericForPrep': 'NumericForPrep',
    'NumericForLoop': 'NumericForLoop',
}

Image = namedtuple('Image', 'name family text')
Run = namedtuple('Run', 'answer did features')
# A step from one of the oracle's states: what the oracle and the Rust make of it.
Step = namedtuple('Step', 'place name operands wanted got')
# An image to which the answers differ: the steps in which they part, each with its cause.
Difference = namedtuple('Difference', 'image parted')


# ---- the oracle

class Oracle:
    """The oracle on an image, step by step, in the words of ../vectors/rust/src/images.rs."""

    def __init__(self, image):
        self.machine = m = Machine()
        assert (m.read(image.text)[0], m.start()[0]) == (DONE, DONE), image.name
        self.protos = m.protos()

    def now(self):
        return self.machine.place()

    def instruction(self):
        q, p = self.now()
        return self.protos[q].instructions[p]

    def runs(self):
        return self.machine.number == RUNNING

    def step(self):
        self.machine.step(self.protos)

    def one(self, value):
        """A value with every NaN the same one."""
        kind, word = value
        return (kind, ONE_NAN) if kind == NUMBER and double(word) != double(word) else value

    def shown(self, values):
        return ''.join(' ' + self.machine.shown(self.one(value)) for value in values)

    def windows(self):
        """Where the innermost window begins, and where it ends."""
        m = self.machine
        sizes = [self.protos[m.activation(i).prototype].registers for i in range(m.depth)]
        return sum(sizes[:-1]), sum(sizes)

    def state(self):
        m = self.machine
        places = ''.join(' %d.%d' % m.activation(i) for i in range(m.depth))
        return 's' + places + self.shown(m.register(r) for r in range(self.windows()[1]))

    def answer(self, count):
        """Of a machine that has ended."""
        q, p = self.now()
        if self.machine.number:
            return '%d %d %d' % (self.machine.number, q, p)
        return '0 %d' % count + self.shown(self.machine.returned())

    def operands(self):
        """The values that the next instruction works on, strings with their bytes."""
        base, _ = self.windows()
        q, _ = self.now()
        operation, flags, a, b, c = self.instruction()
        name = OPERATIONS[operation]

        def register(r):
            kind, word = self.one(self.machine.register(base + r))
            return (kind, self.machine.text(word)) if kind == STRING else (kind, word)

        def source(is_constant, i):
            if not is_constant:
                return register(i)
            data = self.protos[q].constants[i]
            return data[0], data[1:] if data[0] == STRING else int.from_bytes(data[1:], 'big')

        if name in BINARY or name in COMPARISONS:
            return [source(flags & 1, b), source(flags & 2, c)]
        if name in ('Not', 'Minus', 'BitNot', 'Move', 'TestSet'):
            return [register(b)]
        if name in ('Test', 'Call'):
            return [register(a)]
        if name == 'NumericForPrep':
            return [register(a), register(a + 2)]
        return [register(a + i) for i in range(3)] if name == 'NumericForLoop' else []


def outcome(oracle, before, depth):
    """What a step did, in a word."""
    m = oracle.machine
    if m.number not in (RUNNING, DONE):
        return 'raised'
    if m.number == DONE or m.depth != depth:
        return 'on'
    return 'on' if m.place().instruction == before.instruction + 1 else 'elsewhere'


def is_zero_divisor(name, operands):
    """Whether an integer is divided by an integer zero: one of a register, of a constant, or one that a string reads as."""
    left, right = texts.figured(NAMES[name], operands)
    return left[0] == INTEGER and right == (INTEGER, 0)


def play(image, most):
    """The oracle's run, or None where it takes more than `most` instructions."""
    oracle, did, features = Oracle(image), Counter(), set()
    count = 0
    while oracle.runs():
        if count == most:
            return None
        before, depth, name = oracle.now(), oracle.machine.depth, OPERATIONS[oracle.instruction().operation]
        kinds = tuple(kind for kind, _ in oracle.operands()) if image.family in (SMALL, SHORT, FIGURES) else ()
        flags = oracle.instruction().flags
        by_zero = name in ZERO_DIVISOR and is_zero_divisor(name, oracle.operands())
        oracle.step()
        count += 1
        if (oracle.machine.number in ZERO_DIVISOR.values()) != by_zero:
            sys.exit('%s: %d, %s a zero divisor' % (image.name, oracle.machine.number, 'at' if by_zero else 'without'))
        end = outcome(oracle, before, depth)
        did[name, end] += 1
        features.add((name, flags, kinds, end))
    return Run(oracle.answer(count), did, features)


# ---- the Rust

def answered(build, how, text):
    """What a build answers to a list, without the names in it."""
    lines = subprocess.run([build, how], input=text, stdout=subprocess.PIPE, check=True, universal_newlines=True).stdout.splitlines()
    return [line for line in lines if not line.startswith('#')]


# At a zero divisor the Rust raises FloorDivide and Modulo, as for an operand that is no number; document 02 has numbers of their own for it.
ERROR_OF = {str(number): str(UNFIT_OPERAND[name]) for name, number in ZERO_DIVISOR.items()}


def is_same(wanted, got):
    """Whether the oracle's answer or state is the Rust's."""
    number, blank, rest = wanted.partition(' ')
    return got == ERROR_OF.get(number, number) + blank + rest


def listed(found):
    return ''.join('# %s\n%s' % (image.name, image.text) for image in found)


# ---- why they differ

def limited(step):
    numbers = {'Call': (str(TOO_DEEP), str(TOO_WIDE)), 'Closure': (str(NO_ENTRY),)}.get(step.name, ())
    return step.wanted.split()[0] in numbers and step.got.startswith('s ')


def reports_add(step):
    return step.name == 'Sub' and step.wanted == '31 %d %d' % step.place and step.got == '30 %d %d' % step.place


LIMITS = "the documents' limits of activations, registers and closures (51, 52, 53): nothing in the files that are here has them"
REPORTS = 'the operation Sub reports Add'
CAUSES = [LIMITS, REPORTS] + [text for _, text in RULES] + texts.CAUSES


def cause(image, step):
    if limited(step):
        return LIMITS
    if reports_add(step):
        return REPORTS
    if step.name in NAMES:
        name = NAMES[step.name]
        why = texts.cause(name, step.operands)
        if why:
            return why
        for holds, text in RULES:
            if holds(name, texts.figured(name, step.operands)):
                return text
    sys.exit('no rule: %s, %s at %s on %s: %s, the Rust %s' % (image.name, step.name, step.place, step.operands, step.wanted, step.got))


def states(image):
    """Each step of the oracle's run: the state before it, its place, operation and operands, and what it leaves."""
    oracle = Oracle(image)
    before = oracle.state()
    while oracle.runs():
        at = tuple(oracle.now()), OPERATIONS[oracle.instruction().operation], oracle.operands()
        oracle.step()
        after = oracle.state() if oracle.runs() else oracle.answer(1)
        yield (before, *at, after)
        before = after


def stepped(found, build):
    """What a build makes of each of these lists of steps, an image's each."""
    text = ''.join(listed([image]) + ''.join(before + '\n' for before, *_ in steps) for image, steps in found)
    got = iter(answered(build, 'steps', text))
    for _, steps in found:
        yield [Step(place, name, operands, wanted, next(got)) for _, place, name, operands, wanted in steps]


def differences(found, runs, folder):
    """For each build the images to which its answer isn't the oracle's."""
    builds = {build: os.path.join(folder, build) for build in BUILDS}
    got = {build: answered(path, 'images', listed(found)) for build, path in builds.items()}
    apart = [i for i, run in enumerate(runs) if not all(is_same(run.answer, got[build][i]) for build in BUILDS)]
    walks = [(found[i], list(states(found[i]))) for i in apart]
    return {build: list(explained(apart, walks, runs, got[build], path)) for build, path in builds.items()}


def explained(apart, walks, runs, got, path):
    for i, (image, _), steps in zip(apart, walks, stepped(walks, path)):
        parted = [(step, cause(image, step)) for step in steps if not is_same(step.wanted, step.got)]
        if is_same(runs[i].answer, got[i]):
            continue
        if not parted:
            sys.exit('%s: %s, the Rust %s, and every step is the same' % (image.name, runs[i].answer, got[i]))
        yield Difference(image, parted)


# ---- the images

def lua_images():
    """The programs of real Lua of crates/runs; behind them there stand images of ours."""
    with open(os.path.join(ROOT, 'crates', 'runs', 'stdin')) as file:
        parts = [part.partition('\n') for part in file.read().split('# ')[1:]]
    # of upvalues nothing of the Rust is here: programs that have none
    return [Image(name, LUA, text) for name, _, text in parts if not name.startswith(RANDOM) and '\nd1' not in text]


def random_images():
    return [Image(RANDOM + str(i + 1), family, printed(protos)) for i, (family, protos) in enumerate(images())]


# ---- what is kept

def without_count(answer):
    """As crates/runs writes it."""
    number, _, *values = answer.split(' ')
    return ' '.join([number, *values]) if number == '0' else answer


def picked(found, shows, room):
    """Images that fit into so many bytes: always the one that shows the most, for its bytes, that none of the others does."""
    kept = []
    while True:
        shows = {i: new for i, new in shows.items() if new and len(listed([found[i]])) <= room}
        if not shows:
            return kept
        best = max(shows, key=lambda i: (len(shows[i]) / len(found[i].text), -i))
        kept.append(best)
        room -= len(listed([found[best]]))
        seen = shows[best]
        shows = {i: new - seen for i, new in shows.items()}


def chosen(found, runs):
    """Small and short images of those that agree, and some of figures. Returned values show what was done before, an error only itself and its
    place."""
    def returned(family):
        return {i: run.features for i, run in enumerate(runs) if found[i].family == family and ' b0' in run.answer}

    raised = {i: {feature for feature in run.features if feature[-1] == 'raised'} for i, run in enumerate(runs) if found[i].family == SMALL}
    kept = picked(found, returned(SHORT), ROOM // 2) + picked(found, returned(SMALL), ROOM // 4) + picked(found, raised, ROOM // 4)
    kept += picked(found, returned(FIGURES), ROOM_OF_FIGURES)
    return ''.join('%s= %s\n' % (listed([found[i]]), without_count(runs[i].answer)) for i in sorted(kept))


def table(heads, rows):
    head, *lines = ['| %s |' % ' | '.join(str(cell) for cell in cells) for cells in [heads] + rows]
    return [head, '|' + '---|' * len(heads), *lines, '']


def counted(found, long, apart):
    """How many images of each family agree."""
    rows = []
    for family in [*MANY, LUA, 'all']:
        def many(things):
            return sum(family in (image.family, 'all') for image in things)

        differ = [many(d.image for d in apart[build]) for build in BUILDS]
        rows.append([family, many(found), many(found) - differ[0], differ[0], many(found) - differ[1], differ[1], many(long)])
    return table(['family', 'images', 'agree', 'differ', 'agree, release', 'differ, release', 'left out'], rows)


def example(parted):
    """The step of these that is shortest to show."""
    def text(image, step):
        operands = step.name if step.name in ('Call', 'Closure') else shown_vector(NAMES[step.name], step.operands)
        return '`%s` in `%s` at %d, %d' % (operands, image.name, *step.place)

    texts = [text(image, step) for image, step in parted if step.name in ('Call', 'Closure') or all(kind != FUNCTION for kind, _ in step.operands)]
    return min(texts, key=len)


def by_cause(apart):
    rows = []
    for text in CAUSES:
        first = [sum(d.parted[0][1] == text for d in apart[build]) for build in BUILDS]
        steps = [[(d.image, step) for d in apart[build] for step, why in d.parted if why == text] for build in BUILDS]
        panics = sum(step.got.startswith('panic') for _, step in steps[0])
        if steps[0]:
            rows.append([text, first[0], first[1], len(steps[0]), panics, len(steps[1]), example(steps[0])])
    return table(['the Rust', 'images', 'images, release', 'steps', 'panics', 'steps, release', 'the shortest to show'], rows)


def by_operation(runs):
    did = sum((run.did for run in runs), Counter())
    never = set(CARRIED) - {name for name, _ in did}
    if never:
        sys.exit('never carried out in an image that agrees: ' + ', '.join(sorted(never)))
    rows = [[name] + [did[name, end] or '' for end in ('on', 'elsewhere', 'raised')] for name in CARRIED]
    return table(['operation', 'went on', 'skipped or jumped', 'raised its error'], rows)


def page(found, long, apart, agreeing):
    steps = sum(sum(run.did.values()) for run in agreeing)
    divided_by_zero = sum(run.answer.split(' ')[0] in ERROR_OF for run in agreeing)
    return '\n'.join([
        '<!-- Written by compare.py. -->',
        '# Whole images through the Rust\'s `run_vm`',
        '',
        'Built twice: with overflow checks, and as a release. An image agrees where the Rust returns the values that the oracle returns, after as many',
        'instructions, or raises its error at its instruction. Left out: images whose run takes more than %s instructions.' % format(LONG, ','),
        '',
        *counted(found, long, apart),
        'A zero integer divisor is 45 or 46 in document 02. The Rust raises `FloorDivide` and `Modulo` there, as for an operand that is no number: %d of' %
        divided_by_zero,
        'the images that agree end at a zero divisor, and their operands say that it is one.',
        '',
        'Those that differ, by what parts the two first; and every step of the oracle\'s runs of those images in which the Rust, from the same state, leaves',
        'something else, with the panics among them.',
        '',
        *by_cause(apart),
        'What was carried out in the %d images that agree in both builds, %s instructions:' % (len(agreeing), format(steps, ',')),
        '',
        *by_operation(agreeing),
    ])


def main(folder):
    made = [(image, play(image, LONG)) for image in random_images()]
    made += [(image, play(image, BUDGET)) for image in lua_images()]
    long = [image for image, run in made if run is None]
    found = [image for image, run in made if run is not None]
    runs = [run for _, run in made if run is not None]
    apart = differences(found, runs, folder)
    named = {d.image.name for build in BUILDS for d in apart[build]}
    agreeing = [(image, run) for image, run in zip(found, runs) if image.name not in named]
    with open(os.path.join(folder, 'differences.md'), 'w') as file:
        file.write(page(found, long, apart, [run for _, run in agreeing]))
    with open(os.path.join(folder, 'answers.txt'), 'w') as file:
        file.write(chosen(*zip(*agreeing)))


if __name__ == '__main__':
    main(sys.argv[1])
