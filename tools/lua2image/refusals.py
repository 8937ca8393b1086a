"""What of Lua the machine doesn't carry: finds it in luac5.3's code and says what to write instead.

    too_large(functions)         [(source line, message), ..] of a program with too many functions or instructions
    long_strings(functions)      the same of its strings, while each function has only the constants that stand in it
    objections(functions)        the same of all else, once inputs and upvalues are put in
    too_long(functions, image)   the same for an image that passes the limit of its bytes
    warnings(functions, known)   the same of what is carried and can hardly be meant; known: what upvalues.py knows
    reworded(complaint)          the source line and message of a complaint of luac5.3's own
    in_order(found)              any of these by line, each once"""
import re

from inputs import inputs
from luac_image import constants_used, decoded, descriptors, operation, upvalues_used
from oracle.image import MOST_BYTES, MOST_CONSTANTS, MOST_DESCRIPTORS, MOST_INSTRUCTIONS, MOST_PROTOTYPES, MOST_STRING_BYTES
from oracle.machine import MOST_ARGUMENTS
from oracle.values import INTEGER, NUMBER, STRING

NO_GLOBALS = "%s is a global: rules can't use globals; "
NO_TABLES = "rules can't use tables; keep each value in a local of its own"
OPEN_CALL = 'is a call that gives any number of values; for one value put it in parentheses: '
ANY_NUMBER = "'...' stands for any number of values: "
AS_INPUT = "give the value to the rule as an input: 'local %s = ...' as its first statement"

# Operations that are refused wherever they stand.
REFUSED = {
    'NEWTABLE': 'a table is made here: ' + NO_TABLES,
    'CONCAT': "'..' joins strings: rules can't make strings; return the parts as values of their own",
    'LEN': "'#' asks for a length: rules can't take lengths; give the length as a number",
    'POW': "'^' raises to a power: rules can't do that; multiply, or shift for powers of 2",
    'TAILCALL': "'return f(...)' is a tail call: rules can't make tail calls; write 'return (f(...))' for one value, "
                "or keep the values in locals and return those",
    'TFORCALL': "'for ... in' asks a function for each next value: rules can't use it; count with 'for i = first, last do'",
}

# What to do instead of using the library: by the whole name, else by its first part. What the machine can't know comes from outside.
INSTEAD = {
    'math.floor': "write 'a // b', or 'x // 1 | 0'",
    'math.ceil': "write '-(-x // 1) | 0'",
    'math.fmod': "write 'a % b', which has the sign of b",
    'math.tointeger': "write 'x | 0'",
    'math.huge': 'write 1e999',
    'math.maxinteger': 'write 0x7fffffffffffffff',
    'math.mininteger': 'write 0x8000000000000000',
    'math.pi': 'write 3.141592653589793',
    'math.random': AS_INPUT % 'number',
    'tonumber': "write 'x + 0'",
    'print': 'return the values',
    'io.write': 'return the values',
    **dict.fromkeys(('os', 'io', 'arg'), AS_INPUT % 'today'),
    **dict.fromkeys(('math.abs', 'math.max', 'math.min'), "compare with 'if'"),
    **dict.fromkeys(('string', 'tostring', 'utf8'), 'return the parts as values of their own'),
    **dict.fromkeys(('table', 'pairs', 'ipairs', 'next', 'select', '_G', '_ENV'), 'keep each value in a local of its own'),
    **dict.fromkeys(('assert', 'error', 'pcall', 'xpcall'), 'return a verdict of its own'),
    **dict.fromkeys('_VERSION collectgarbage coroutine debug dofile getmetatable load loadfile math package rawequal rawget rawlen rawset require '
                    'setmetatable type'.split(), 'write what is needed as a local function'),
}

# The steps with which a loop has no end, or no pass.
ZEROS = (bytes([INTEGER]) + bytes(8), bytes([NUMBER]) + bytes(8))


# ---- luac's instructions

def text(name):
    return name.decode('utf-8', 'replace')


def field(function, key):
    """A table's field as it is written after the table: .name where the key is a constant name, else [...]."""
    constant = function.constants[key - 256] if key >= 256 else b''
    name = text(constant[1:])
    return '.' + name if constant[:1] == bytes([STRING]) and name.isidentifier() else '[...]'


def reads_on(function, p):
    """Whether instruction p reads a field of what the one before it has just read, as in a.b.c."""
    if p == 0 or function.lines[p] != function.lines[p - 1]:
        return False
    before, read, _, _ = decoded(function.code[p - 1])
    name, _, table, _ = decoded(function.code[p])
    return name == 'GETTABLE' and before in ('GETTABUP', 'GETTABLE') and table == read


def fields_from(function, p):
    """The fields that instruction p and those that read on from it name: .format, or .b.c"""
    path = field(function, decoded(function.code[p])[3])
    while p + 1 < len(function.code) and reads_on(function, p + 1):
        p += 1
        path += field(function, decoded(function.code[p])[3])
    return path


# ---- what stands against an instruction

def of_global(path):
    """path: the global and its fields, as in .os.time"""
    name = path.lstrip('.')
    parts = name.split('.')
    instead = INSTEAD.get(name) or INSTEAD.get(parts[0])
    if instead is None:
        instead = 'make it a local, or ' + AS_INPUT % (parts[-1] if parts[-1].isidentifier() else 'today')
    return NO_GLOBALS % quoted(name) + instead


def of_varargs(function, p):
    if function.number:
        return ANY_NUMBER + "functions can't use it; give each parameter a name"
    if p == 0 and inputs(function) > MOST_ARGUMENTS:
        return '%d inputs: a rule takes at most 8; use fewer, or put yes and no together as the bits of an integer' % inputs(function)
    if p == 0 and inputs(function):
        return "a loop or a goto leads back to the inputs: a rule takes them once; put 'local a, b = ...' before it"
    return ANY_NUMBER + "rules can't use it but to name their inputs, with 'local a, b = ...' as the first statement"


def of_field(path):
    return '%s is a field of a table: %s' % (quoted(path), NO_TABLES)


def of_upvalue(function, p):
    """What stands against an instruction that reads or sets _ENV, or a field of an upvalue: globals are fields of _ENV."""
    word = function.code[p]
    name, _, b, _ = decoded(word)
    outer = text(function.upvalue_names[upvalues_used(word)[0]])
    if name in ('GETTABUP', 'SETTABUP'):
        path = fields_from(function, p) if name == 'GETTABUP' else field(function, b)
        if outer != '_ENV':
            return of_field(path)
        return of_global(path) if name == 'GETTABUP' else NO_GLOBALS % quoted(path.lstrip('.')) + 'make it a local'
    return of_global(outer) if outer == '_ENV' else None


def quoted(name):
    return "'%s'" % name


def objection(function, p):
    """What stands against instruction p; None where it is carried, or where the message belongs to another instruction."""
    name, a, b, c = decoded(function.code[p])
    before = operation(function.code[p - 1]) if p else None
    if name in REFUSED:
        return REFUSED[name]
    if name == 'VARARG':
        return of_varargs(function, p)
    if upvalues_used(function.code[p]):
        return of_upvalue(function, p)
    if name == 'GETTABLE' and not reads_on(function, p):
        return of_field(fields_from(function, p))
    if name == 'SETTABLE':
        return of_field(field(function, b))
    if name == 'SELF':
        return "':%s' calls a method: rules can't call methods; call a local function" % field(function, c).lstrip('.')
    if name == 'CALL' and b == 0 and before != 'VARARG':
        return "the last argument %s'f(a, (g(b)))'" % OPEN_CALL
    if name == 'RETURN' and b == 0 and before not in ('VARARG', 'TAILCALL'):
        return "the last value returned %s'return a, (g(b))'" % OPEN_CALL
    return None


# ---- limits

def line_of(function):
    """The source line at which a function begins; luac gives the main program line 0."""
    return max(1, function.line)


def first_use(function, constant):
    """The source line of the first instruction that uses a constant."""
    lines = (line for word, line in zip(function.code, function.lines) if constant in constants_used(word))
    return next(lines, line_of(function))


def too_large(functions):
    found = []
    if len(functions) > MOST_PROTOTYPES:
        found.append((line_of(functions[MOST_PROTOTYPES]), (
            '%d functions, the main program among them: an image has at most 32; put some of them together' % len(functions))))
    for function in functions:
        if len(function.code) > MOST_INSTRUCTIONS:
            found.append((function.lines[MOST_INSTRUCTIONS], (
                '%d instructions in one function: at most 4,096 are carried; split it into several functions' % len(function.code))))
    return found


def long_strings(functions):
    return [(first_use(function, i), 'a string of %d bytes: at most 64 are carried; use a shorter one' % (len(constant) - 1))
            for function in functions for i, constant in enumerate(function.constants)
            if constant[0] == STRING and len(constant) - 1 > MOST_STRING_BYTES]


def too_many_constants(functions):
    return [(first_use(function, MOST_CONSTANTS), (
        '%d constants in one function: at most 256 are carried; split it into several functions' % len(function.constants)))
            for function in functions if len(function.constants) > MOST_CONSTANTS]


def too_many_upvalues(functions):
    """But for the main function, whose one is _ENV."""
    found = []
    for function in functions[1:]:
        count = len(function.upvalues)
        if count > MOST_DESCRIPTORS:
            lines = (line for word, line in zip(function.code, function.lines) if MOST_DESCRIPTORS in upvalues_used(word))
            found.append((next(lines, line_of(function)), (
                '%d variables of outer functions in one function, constants not counted: at most 8 are carried; pass some of them as arguments' % count)))
    return found


def objections(functions):
    found = too_many_constants(functions) + too_many_upvalues(functions)
    for function in functions:
        found += [(line, objection(function, p)) for p, line in enumerate(function.lines)]
    return [(line, message) for line, message in found if message]


def too_long(functions, image):
    if len(image) <= MOST_BYTES:
        return []
    lines = []
    for function in functions:
        lines += [line_of(function)] * (1 + len(descriptors(function)) + len(function.constants)) + function.lines
    lines.append(lines[-1])
    passed = image.count('\n', 0, MOST_BYTES)
    return [(lines[passed], 'the image passes 65,536 bytes here and has %d: more are not read; make the rule shorter' % len(image))]


# ---- what is carried and can hardly be meant

def warnings(functions, known):
    return [(function.lines[p], "warning: the step of this 'for' is 0: the loop has no end, or no pass")
            for function in functions for p, word in enumerate(function.code)
            if operation(word) == 'FORPREP' and known.held(function, p, decoded(word)[1] + 2) in ZEROS]


# ---- luac's complaints

def reworded(complaint):
    """luac's own words, with advice where a limit of luac's is passed; None where they name no line."""
    parts = re.match(r'(?s)luac5\.3: .*?:(\d+): (.*)', complaint)
    if not parts:
        return None
    line, message = parts.groups()
    if 'too many registers' in message:
        message += '; a function has at most 254, so use fewer locals and arguments, or split it into several functions'
    elif 'too many local variables' in message:
        message += '; use fewer, or split it into several functions'
    return int(line), message


def in_order(found):
    return sorted(dict.fromkeys(found), key=lambda objection: objection[0])
