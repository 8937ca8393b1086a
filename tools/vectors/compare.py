"""Holds Lua's answers and the Rust's against the reference, and writes what the repository keeps.

    compare.py FOLDER

FOLDER has lua5.3.list, lua5.4.list, and the Rust's answers with overflow checks (checked.list, .loops, .facts) and as a
release (released.list, .loops, .facts); make.sh puts them there. Written into it: stdin (Lua's lists, then the Rust's with
`-` wherever it differs from the documents), stdout (what the replayer must print of it) and differences.md. It stops with
an error where Lua differs from the reference anywhere, or the Rust where no rule of RULES says so, where Lua names another
operand than named.txt without a cause, and where `%` of numbers breaks its law.
"""
import re
import sys
from collections import namedtuple
from fractions import Fraction
from itertools import product

import reference
from causes import AGREED, COMPARED, ORDER_OF_TESTS, RULES, SIGN, named_by_lua, product_vanishes, shown, shown_vector
from named import CLASS_OF, CLASSES, ERRORS, answer
from reference import INTEGER, NUMBER, STRING, TOP, signed

Section = namedtuple("Section", "numbers source name values results")
Difference = namedtuple("Difference", "rule name operands wanted checked released")
Error = namedtuple("Error", "source name operands wanted told cause")
ARITY = {"negate": 1, "bitwise_not": 1, "past_end": 3}
HARD = "hard numbers modulo"
SOURCES = {"lua": "Lua 5.3", "lua5.4": "Lua 5.4"}


# The lists.

def value_of(line):
    if line[0] == "s":
        return (STRING, bytes.fromhex(line[4:]))
    return (int(line[1]), int(line[3:], 16))


def line_of(value):
    kind, word = value
    return "s%02x %s" % (len(word), word.hex()) if kind == STRING else "v%d %016x" % (kind, word)


def sections(path):
    """The operators of a list, each with the values that it is about and its results in order."""
    found, values = [], []
    for line in open(path).read().split("\n")[:-1]:
        if line[0] == "w":
            values = []
        elif line[0] in "vs":
            values.append(value_of(line))
        elif line[0] == "o":
            source, name = line[14:].split(" ", 1)
            found.append(Section(line[1:6], source, name, values, []))
        else:
            results = re.findall("[in][0-9a-f]{16}|[tf12zep-]", line)
            assert "".join(results) == line, line
            found[-1].results.extend(results)
    for s in found:
        assert len(s.results) == len(s.values) ** arity(s), s.name
    return found


def list_of(all_sections):
    lines, values = [], None
    for s in all_sections:
        if s.values is not values:
            values = s.values
            lines += ["w%02x" % len(values)] + [line_of(v) for v in values]
        lines.append("o%s %06x %s %s" % (s.numbers, len(s.results), s.source, s.name))
        n = len(values)
        lines += ["".join(s.results[i:i + n]) for i in range(0, len(s.results), n)]
    return "\n".join(lines) + "\n"


def plain(name):
    """The operator's own name: before it there may stand what it is applied to."""
    return name.split(" ")[-1]


def arity(section):
    return ARITY.get(plain(section.name), 2)


def vectors(section):
    """Each result with its operands and what the documents say."""
    n, name = len(section.values), plain(section.name)
    for p, got in enumerate(section.results):
        places = [p // n ** k % n for k in range(arity(section))][::-1]
        operands = [section.values[i] for i in places]
        yield operands, got, answer(name, operands)


def loops(path):
    """The results of NumericForLoop with their operands and what the documents say."""
    for line in open(path):
        *words, got = line.split()
        operands = [(int(words[i]), int(words[i + 1], 16)) for i in (0, 2, 4)]
        yield operands, got, reference.numeric_for_loop(*operands)


# Lua, and the law of `%`.

def left_out(section, operands):
    """What no list of Lua 5.3 has, and nothing else is missing from it."""
    if section.source != "lua" or plain(section.name) != "modulo" or not all(map(reference.is_numeric, operands)):
        return False
    return product_vanishes(*map(reference.to_number, operands))


def foretold(section, operands, want):
    """Lua's answer, and of an error the cause where Lua doesn't name the operand that the documents name."""
    if left_out(section, operands):
        return "-", None
    return named_by_lua(plain(section.name), operands) if want in ERRORS else (want, None)


def held(path):
    """Lua's list with the table's word for each error, and the errors. The list must have the reference's answers, `-` just where Lua 5.3 has another,
    and name the table's operand but for a cause."""
    found, kept, errors = sections(path), [], []
    assert list_of(found) == open(path).read()
    for s in found:
        results = []
        for operands, got, want in vectors(s):
            lua, cause = foretold(s, operands, want)
            if got != lua or want in ERRORS and got != want and cause is None:
                sys.exit("Lua differs: %s %s %s: %s, not %s" % (s.source, s.name, operands, got, want))
            if plain(s.name) == "modulo" and want[0] == "n":
                check_law(*map(reference.to_number, operands), int(want[1:], 16))
            results.append(want if want in ERRORS else got)
            if want in ERRORS:
                errors.append(Error(s.source, plain(s.name), operands, want, got, AGREED if got == want else cause))
        kept.append(s._replace(results=results))
    return kept, errors


def check_law(x, y, word):
    """`%` of finite numbers is what a division rounded down leaves, rounded once; but a zero has the sign of the dividend."""
    if not (is_finite(x) and is_finite(y)) or y % TOP == 0:
        return
    a, b = reference.exact(x), reference.exact(y)
    rest = a - b * (a // b)
    lawful = word == (reference.rounded(rest) if rest else reference.signed_word(reference.negative(x), 0))
    lawful &= min(0, b) <= reference.exact(word) <= max(0, b)
    # The divisor itself only where the rest is nearer to it than to the next number toward zero, or in the middle.
    lawful &= word != y or 2 * abs(b - rest) <= reference.size(y) - reference.size(y - 1)
    if not lawful:
        sys.exit("no remainder: %016x %% %016x is %016x" % (x, y, word))


def is_finite(word):
    return word % TOP < reference.INFINITY


# Where the Rust differs.

def rule_of(name, operands):
    for holds, text in RULES:
        if holds(plain(name), operands):
            return text
    sys.exit("no rule: %s %s" % (name, operands))


def differences_of(name, checked, released):
    """The Rust's results with `-` wherever it differs from the documents, and the differences."""
    kept, differences = [], []
    for (operands, got, want), (_, loose, _) in zip(checked, released, strict=True):
        if got not in ("p", loose):
            sys.exit("the two builds differ: %s %s: %s, %s" % (name, operands, got, loose))
        # The Rust names no operand.
        got, loose = (want if told == "e" and want in ERRORS else told for told in (got, loose))
        kept.append(got if got == want else "-")
        if got != want:
            differences.append(Difference(rule_of(name, operands), name, operands, want, got, loose))
    return kept, differences


# What is written.

def shown_result(result):
    if result[0] in "in" and len(result) >= 17:
        value = shown((INTEGER if result[0] == "i" else NUMBER, int(result[1:17], 16)))
        return value + {"": "", "t": ", past", "f": ", on"}[result[17:]]
    return {"t": "true", "f": "false", "e": "error", "p": "panic"}.get(result, result)


def shown_error(result):
    """A result that may name an operand."""
    return {"1": "error, 1", "2": "error, 2", "z": "zero divisor"}.get(result) or shown_result(result)


def weight(operands):
    """Small operands first, and of the same size the positive ones; infinities and NaN last."""
    def exact(v):
        if v[0] == INTEGER:
            return Fraction(signed(v[1]))
        return reference.exact(v[1]) if is_finite(v[1]) else Fraction(2) ** 1024
    whole = [exact(v) for v in operands]
    return (sum(abs(q) for q in whole), [-q for q in whole])


def smallest(group):
    """The smallest example, one that the release shows too where there is one."""
    return min(group, key=lambda d: (d.released == d.wanted, weight(d.operands)))


def expected(all_sections):
    lines, total = [], 0
    for s in all_sections:
        compared = sum(r != "-" for r in s.results)
        total += compared
        lines.append("%s %s: compared %d, different 0" % (s.source, s.name, compared))
    return "\n".join(lines + ["all %d agree" % total]) + "\n"


def lua_table(errors):
    """Whom Lua names where the documents raise an error."""
    lines = [
        "",
        "## Whom Lua names",
        "",
        "Lua raises an error just where the documents do. Its message names an operand, a zero divisor, or neither: `error`.",
        "",
        "| Lua | names | operators | errors | smallest | documents | Lua |",
        "|---|---|---|---|---|---|---|",
    ]
    groups = {}
    for e in errors:
        groups.setdefault((e.source, e.cause, CLASS_OF[e.name], e.wanted), []).append(e)
    for key in product(SOURCES, (AGREED, ORDER_OF_TESTS, COMPARED), CLASSES, ERRORS):
        if key in groups:
            source, cause, operators, wanted = key
            e = min(groups[key], key=lambda e: weight(e.operands))
            lines.append("| %s | %s | %s | %d | `%s` | %s | %s |" % (
                SOURCES[source], cause, operators, len(groups[key]), shown_vector(e.name, e.operands), shown_error(wanted), shown_error(e.told)))
    return lines


def table(differences, facts, errors):
    lines = [
        "<!-- Written by compare.py. -->",
        "# Where the Rust differs from the documents, on the operands of values.txt and remainders.txt",
        "",
        "Built twice: with overflow checks, and as a release. Where the first doesn't panic the two agree, and its answers",
        "are the list that is kept. `vectors` counts those that differ from the documents, `panics` how many of them are",
        "panics, and `by chance` how many the release, where nothing is checked, has right all the same. Hard numbers are",
        "those of remainders.txt. An error has the operand that it names beside it.",
        "",
        "| The Rust | operator | vectors | panics | by chance | smallest | documents | Rust | release |",
        "|---|---|---|---|---|---|---|---|---|",
    ]
    for _, rule in RULES:
        for name in [*SIGN, HARD]:
            group = [d for d in differences if d.rule == rule and d.name == name]
            if group:
                d = smallest(group)
                lines.append("| %s | %s | %d | %d | %d | `%s` | %s | %s | %s |" % (
                    rule, name, len(group), sum(d.checked == "p" for d in group),
                    sum(d.released == d.wanted for d in group), shown_vector(plain(name), d.operands),
                    shown_error(d.wanted), shown_error(d.checked), shown_error(d.released)))
    lines += [
        "",
        "NumericForLoop is shown by index, limit and step, and answers the new index and whether it is past the end.",
        "",
        "Single inputs, run the same way:",
        "",
        "| input | Rust | release |",
        "|---|---|---|",
    ]
    lines += ["| `%s` | %s | %s |" % (text.replace("|", "\\|"), shown_result(a), shown_result(b)) for text, a, b in facts]
    lines += lua_table(errors)
    return "\n".join(lines) + "\n"


def main(folder):
    def path(name):
        return folder + "/" + name

    def facts_of(name):
        return [line.split("\t") for line in open(path(name)).read().splitlines()]

    lua, errors = zip(*(held(path(name)) for name in ("lua5.3.list", "lua5.4.list")))

    rust, differences = [], []
    for s, r in zip(sections(path("checked.list")), sections(path("released.list")), strict=True):
        results, found = differences_of(s.name, vectors(s), vectors(r))
        rust.append(s._replace(results=results))
        differences += found
    differences += differences_of("NumericForLoop", loops(path("checked.loops")), loops(path("released.loops")))[1]

    facts = [(a[0], a[1], b[1]) for a, b in zip(facts_of("checked.facts"), facts_of("released.facts"), strict=True)]
    open(path("stdin"), "w").write("".join(map(list_of, [*lua, rust])))
    open(path("stdout"), "w").write(expected(sum(lua, []) + rust))
    open(path("differences.md"), "w").write(table(differences, facts, sum(errors, [])))


main(sys.argv[1])
