"""Where luac's instructions lead, and which of them a register's value comes from.

    next_places(function, p)           the instructions that may follow instruction p
    written(function, word)            the registers that an instruction may write
    Flow(function).definitions(p, r)   the instructions from whose writing the value of register r may come when instruction p begins; ENTRY is
                                       the function's own beginning, which has the parameters

Each says at least what is so: a register that may be written counts as written, a way that may be taken as taken."""
from luac_image import decoded, jump, operation

ENTRY = -1
# They skip the next instruction or don't.
TESTS = ('EQ', 'LT', 'LE', 'TEST', 'TESTSET')
WRITES_NONE = ('SETTABUP', 'SETUPVAL', 'SETTABLE', 'JMP', 'EQ', 'LT', 'LE', 'TEST', 'RETURN', 'SETLIST', 'EXTRAARG')


def next_places(function, p):
    word = function.code[p]
    name, _, _, c = decoded(word)
    if name == 'RETURN':
        places = []
    elif name in ('JMP', 'FORPREP'):
        places = [p + 1 + jump(word)]
    elif name in ('FORLOOP', 'TFORLOOP'):
        places = [p + 1, p + 1 + jump(word)]
    elif name in TESTS:
        places = [p + 1, p + 2]
    else:
        places = [p + 2 if name == 'LOADBOOL' and c else p + 1]
    return [place for place in places if place < len(function.code)]


def written(function, word):
    name, a, b, c = decoded(word)
    if name in WRITES_NONE:
        return range(0)
    if name in ('CALL', 'TAILCALL') or name == 'VARARG' and b == 0:
        # the results, and in Lua the called function's own registers lie there too
        return range(a, function.registers)
    if name == 'TFORCALL':
        return range(a + 3, function.registers)
    if name == 'CONCAT':
        return [a, *range(b, c + 1)]
    if name == 'FORLOOP':
        return [a, a + 3]
    ends = {'LOADNIL': a + b + 1, 'VARARG': a + b - 1, 'SELF': a + 2, 'FORPREP': a + 3}
    return range(a, ends.get(name, a + 1))


class Flow:
    """A function's flow. before: for each instruction those that it may follow; writes: for each the registers that it may write."""

    def __init__(self, function):
        self.function = function
        self.writes = [frozenset(written(function, word)) for word in function.code]
        self.before = [[] for _ in function.code]
        for p in range(len(function.code)):
            for place in next_places(function, p):
                self.before[place].append(p)

    def definitions(self, p, r):
        found, seen, waiting = set(), {p}, [p]
        while waiting:
            place = waiting.pop()
            if place == 0:
                found.add(ENTRY)
            for earlier in self.before[place]:
                if r in self.writes[earlier]:
                    found.add(earlier)
                    # one that skips writes nothing
                    if operation(self.function.code[earlier]) != 'TESTSET':
                        continue
                if earlier not in seen:
                    seen.add(earlier)
                    waiting.append(earlier)
        return found
