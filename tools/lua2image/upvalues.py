"""Upvalues that need no cell: variables of an outer function that are never assigned and hold a constant.

    Known(functions)             what is known before the program runs; functions: all of them, in the image's order
      .held(function, p, r)        the constant that register r holds whenever instruction p begins
      .shared(function, u)         the constant that upvalue u holds whenever it is read
    put_in(functions, known)     puts what is known in the place of each instruction that reads an upvalue, and drops what nothing uses then

A constant is its bytes, as the image has it; None where that isn't known. It is known of an upvalue if

1. it stands for a local of an outer function, which the debug information tells: the locals in scope at an instruction own the registers from
   0 on, in their order;
2. no instruction in the local's scope writes its register, and no function sets it as an upvalue;
3. just one definition of that register reaches the instruction that makes the closure, and what it puts there is known.

The last write before the closure in the order of the code wouldn't do: a `for` writes its variable from behind.

Every other upvalue is one of the image's. A function that is never assigned is too: another closure of it would be another entry each time."""
from collections import namedtuple

from flow import ENTRY, Flow
from luac_image import decoded, encoded, operation, upvalues_used, wide
from oracle.values import BOOLEAN, NIL

# local: its number among the function's locals.
Variable = namedtuple('Variable', 'function local register')
# A variable, and the instruction of its function that makes the closure.
Capture = namedtuple('Capture', 'variable closure')


def makers(functions):
    """For each function but the main one the place at which it is made a closure: the function around it and the instruction."""
    places = {}
    for outer in functions:
        for p, word in enumerate(outer.code):
            if operation(word) == 'CLOSURE':
                places.setdefault(outer.functions[wide(word)], []).append((outer, p))
    return {function: found[0] for function, found in places.items() if len(found) == 1}


def owner(function, p, r):
    """The number of the local that owns register r when the CLOSURE at p takes it; None where none does."""
    in_scope = function.in_scope(p)
    if r < len(in_scope):
        return in_scope[r]
    # `local function f` is in scope of its own body, but by the debug information only from the instruction after its CLOSURE on
    begun = [k for k, (_, start, _) in enumerate(function.locals) if start == p + 1]
    return begun[0] if begun and r == len(in_scope) == decoded(function.code[p])[1] else None


class Known:
    def __init__(self, functions):
        self.makers = makers(functions)
        self.flows = {function: Flow(function) for function in functions}
        self.found = {}
        captures = [self.capture(function, decoded(word)[2]) for function in functions for word in function.code if operation(word) == 'SETUPVAL']
        self.set_by_functions = {capture.variable for capture in captures if capture}

    def capture(self, function, u):
        """What an upvalue stands for; None where that isn't a local of one of the functions, as of _ENV."""
        in_register = False
        while not in_register:
            if function not in self.makers or u >= len(function.upvalues):
                return None
            in_register, u = function.upvalues[u]
            function, p = self.makers[function]
        local = owner(function, p, u)
        return None if local is None else Capture(Variable(function, local, u), p)

    def is_assigned(self, variable):
        function, local, register = variable
        _, start, end = function.locals[local]
        return variable in self.set_by_functions or any(register in writes for writes in self.flows[function].writes[start:end])

    def shared(self, function, u):
        if (function, u) not in self.found:
            self.found[function, u] = self.of_capture(self.capture(function, u))
        return self.found[function, u]

    def of_capture(self, capture):
        if capture is None or self.is_assigned(capture.variable):
            return None
        function, local, register = capture.variable
        _, start, _ = function.locals[local]
        if start == capture.closure + 1:
            # `local function f` in its own body
            return None
        # a closure that is never made has what the local begins with: so the listing shows what the source says
        is_made = self.flows[function].definitions(capture.closure, register)
        return self.held(function, capture.closure if is_made else start, register)

    def held(self, function, p, r):
        passed = set()
        while (p, r) not in passed:
            passed.add((p, r))
            found = self.flows[function].definitions(p, r)
            if not found:
                # instruction p is never reached, so this is as true as anything
                return bytes([NIL])
            if len(found) != 1 or ENTRY in found:
                return None
            p, = found
            name, _, b, _ = decoded(function.code[p])
            if name != 'MOVE':
                return self.put(function, p)
            if self.is_set_by_functions(function, p, b):
                return None
            r = b
        return None

    def is_set_by_functions(self, function, p, r):
        """Whether register r is at instruction p a local's that a function sets as an upvalue."""
        in_scope = function.in_scope(p)
        return r < len(in_scope) and Variable(function, in_scope[r], r) in self.set_by_functions

    def put(self, function, p):
        """What instruction p, no MOVE, puts into its registers."""
        word = function.code[p]
        name, _, b, c = decoded(word)
        if name == 'LOADK':
            return function.constants[wide(word)]
        if name == 'LOADBOOL' and not c:
            return bytes([BOOLEAN, b != 0])
        if name == 'LOADNIL':
            return bytes([NIL])
        return self.shared(function, b) if name == 'GETUPVAL' else None


# ---- in the code

def number_in(those, one):
    """The number of one among those, to which it is added where it isn't there."""
    if one not in those:
        those.append(one)
    return those.index(one)


def loading(function, a, held):
    """The instruction of luac's that puts a constant into register a."""
    if held[0] == NIL:
        return encoded('LOADNIL', a, 0)
    if held[0] == BOOLEAN:
        return encoded('LOADBOOL', a, held[1] << 9)
    return encoded('LOADK', a, number_in(function.constants, held))


def put_in(functions, known):
    """A function's constants may become more: those of outer functions that it reads."""
    reads = [(function, p, known.shared(function, decoded(word)[2]))
             for function in functions for p, word in enumerate(function.code) if operation(word) == 'GETUPVAL']
    for function, p, held in reads:
        if held is not None:
            _, a, u, _ = decoded(function.code[p])
            function.put_in[p] = function.upvalue_names[u]
            function.code[p] = loading(function, a, held)
    drop_unused(functions)


# ---- what nothing uses

def drop_unused(functions):
    """Upvalues that neither a function nor one within it reads or sets, and the closing of registers that none holds."""
    used = {}
    # each function stands before those within it
    for function in reversed(functions):
        own = {u for word in function.code for u in upvalues_used(word)}
        within = {number for inner in function.functions for u in used[inner] for in_register, number in [inner.upvalues[u]] if not in_register}
        used[function] = sorted(own | within)
    for function in functions:
        keep_upvalues(function, used[function])
    for function in functions:
        held = [number for inner in function.functions for in_register, number in inner.upvalues if in_register]
        function.code = [closing(word, max(held, default=-1)) for word in function.code]


def keep_upvalues(function, used):
    """Those of these numbers, in their order. The main function's one is _ENV, and stays."""
    if not function.number:
        return
    function.upvalues = [function.upvalues[u] for u in used]
    function.upvalue_names = [function.upvalue_names[u] for u in used]
    function.code = [renumbered(word, used) for word in function.code]
    for inner in function.functions:
        inner.upvalues = [(in_register, number if in_register or number not in used else used.index(number)) for in_register, number in inner.upvalues]


def renumbered(word, used):
    """An instruction with the new number of the upvalue that it uses."""
    name, a, b, c = decoded(word)
    if name in ('GETUPVAL', 'SETUPVAL', 'GETTABUP'):
        return encoded(name, a, used.index(b) << 9 | c)
    return encoded(name, used.index(a), b << 9 | c) if name == 'SETTABUP' else word


def closing(word, last):
    """A JMP closes nothing where the last register that is held lies below the one that it closes from."""
    name, a, _, _ = decoded(word)
    return encoded('JMP', 0, wide(word)) if name == 'JMP' and a - 1 > last else word
