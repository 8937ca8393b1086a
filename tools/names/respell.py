#!/usr/bin/env python3
"""Respells the names of specs/ and proofs/, once, after the kit's own script: definitions and fields in snake case; a lemma's name has a dash
between two names and an underscore before a plain word. Types, modules and what src/ names keep their spelling.

usage: tools/names/respell.py KIT    at the top of the repository; KIT is the folder of the toolchain, whose words count as names

It goes by whole words: crates/*/specs, crates/*/proofs, the clauses and comments of crates/*/src, and in the pages what stands in backticks.
It stops before it writes anything where two names of one file would fall together.
"""

import glob
import re
import sys

TOKEN = re.compile(r"[^\s(){}\[\],;.:\"`|/!?*+<>=≡→←λ×]+")
HEAD = re.compile(r"^( *)(?:unfoldable |abbrev )*(?:pub )?(?:unfoldable |abbrev )*(?:record |data |indexed )?([^\s:({\[]+)(?= *[:({]| *$)")
WORDS = ("use", "pub", "mod", "module", "where", "open", "let", "in", "of", "record", "data", "abbrev", "unfolding", "elim", "syntax")
# where the plain rule would give a name that its file has already
KEPT = ("with-point", "named-in", "loop-effect", "prep-effect", "in-range", "strode-in", "frames-in", "entry-of", "read-as")
BY_HAND = {"aboveZero": "above_zero", "above_zero": "above_zero-fin", "below-zero": "below_zero-fin"}
# a lemma inside another one, which has the name of a definition now
LOCAL = {"crates/figures/proofs/TallyLaws.antt": ("one_more", "one_plus"), "crates/quick/proofs/Clearing.antt": ("moved_on", "moved_past"),
         "crates/quick/proofs/calls/moved/Proof.antt": ("moved_on", "moved_past")}


# names that no declaration at the left shows: constructors of figures/specs/Grammar with a field of Statements, and parameters. (Turned later than the
# others, in a commit of its own.)
FIGURES = {n: n.replace("-", "_") for n in "a-fraction decimal-digits exponent-part hex-digits hex-wraps is-integer next-blank next-digit no-blank".split()}
FIGURES.update({n: n.replace("-", "_") for n in "no-exponent with-exponent zero-fits not-below".split()})
FIGURES.update({"from-A-to-F": "from_upper", "from-a-to-f": "from_lower"})
PARAMETERS = {"goOn": "goes", "onIntegers": "on_integers", "onNumbers": "on_numbers", "onTexts": "on_texts"}


def snake(name):
    if not name[0].islower() or not re.search("[A-Z]", name):
        return name
    return re.sub(r"([a-z0-9])([A-Z])", lambda m: m.group(1) + "_" + m.group(2).lower(), name[0] + re.sub("([A-Z])([A-Z])(?=[a-z])", r"\1_\2", name[1:])).lower()


def declared(text):
    """The names that a file declares at the left, in a record or in a `where`, each with whether it is a field."""
    inside = None
    for line in text.split("\n"):
        code = line.split("--")[0] if line.lstrip().startswith("--") else line
        m = HEAD.match(code)
        if not m or m.group(2) in WORDS or not re.match(r"[\w]", m.group(2)):
            continue
        if re.match(r"(pub )?record ", code):
            inside = True
        elif not m.group(1):
            inside = False
        if re.search(r"[:]| where", code):
            yield m.group(2), bool(m.group(1)) and bool(inside)


def spelled(name, field, names):
    if name in KEPT:
        return name
    if name in BY_HAND:
        return BY_HAND[name]
    if re.search(r"[^\w\-']", name) or name[0].isupper():
        parts = name.split("-")
        if name[0].isupper() and len(parts) == 1:
            return name
    parts = [snake(p) if p else p for p in name.split("-")]
    if "" in parts:
        return name
    out = parts[0]
    for left, right, old in zip(parts, parts[1:], name.split("-")[1:]):
        kept = not field and left in names and right in names
        out += ("-" if kept else "_") + right
    return out


def main():
    kit = sys.argv[1]
    proofs = sorted(glob.glob("crates/*/specs/**/*.antt", recursive=True) + glob.glob("crates/*/proofs/**/*.antt", recursive=True))
    sources = sorted(glob.glob("crates/*/src/**/*.rt", recursive=True))
    texts = {p: open(p, encoding="utf-8").read() for p in proofs + sources}
    for p, (old, new) in LOCAL.items():
        texts[p] = TOKEN.sub(lambda m: new if m.group(0) == old else m.group(0), texts[p])

    # words of the kit, of definitions and of src/: what a dash may join
    names = set()
    for p in glob.glob(kit + "/rattle/std/**/*.antt", recursive=True) + glob.glob(kit + "/rattle/logic/**/*.antt", recursive=True):
        for n, field in declared(open(p, encoding="utf-8", errors="replace").read()):
            if "-" not in n:
                names.add(n)
    for p in proofs:
        if "/specs/" in p:
            names |= {snake(n) for n, field in declared(texts[p]) if "-" not in n and not field}
    for p in sources:
        names |= set(re.findall(r"\bfn (\w+)", texts[p]))

    turn, kit_names = {}, set()
    for p in glob.glob(kit + "/rattle/**/*.antt", recursive=True):
        kit_names |= {n for n, field in declared(open(p, encoding="utf-8", errors="replace").read())}
    for p in proofs:
        top = p.count("/") == 3
        for n, field in declared(texts[p]):
            camel = n[0].islower() and re.search("[A-Z]", n)
            if (top or camel) and not (n in kit_names and n not in BY_HAND):
                new = spelled(n, field, names)
                if new != n:
                    turn[n] = new
    for p in proofs:
        if p.count("/") > 3:
            for n in re.findall(r"(?:Need|After|Before|goal)[-.]([\w'-]+)", texts[p]):
                if n in turn and not re.search("[A-Z]", n):
                    print("a name of a goal too, left:", n)
                    turn.pop(n)

    functions = set()
    for p in sources:
        functions |= set(re.findall(r"\bfn (\w+)", texts[p]))

    bad = 0
    for p, t in texts.items():
        code = re.sub(r"--.*", "", t) if p.endswith(".antt") else re.sub(r"//.*", "", t)
        made = {}
        for w in set(TOKEN.findall(code)):
            # a function of src/ and a definition may have one name
            if p.endswith((".rt", "/Proof.antt")) and w in functions:
                continue
            made.setdefault(turn.get(w, w), set()).add(w)
        for new, olds in made.items():
            if len(olds) > 1:
                bad += 1
                print("fall together:", p, new, sorted(olds))
    if bad:
        raise SystemExit(1)

    def turned(text):
        return TOKEN.sub(lambda m: turn.get(m.group(0), m.group(0)), text)

    for p, t in texts.items():
        if p.endswith(".rt"):
            t2 = "".join(s if s.startswith('"') else turned(s) for s in re.split(r'("(?:[^"\\\n]|\\.)*")', t))
        else:
            t2 = turned(t)
        if t2 != t:
            open(p, "w", encoding="utf-8").write(t2)
    for p in glob.glob("*.md") + glob.glob("docs/*.md"):
        t = open(p, encoding="utf-8").read()
        t2 = re.sub(r"`[^`\n]+`", lambda m: turned(m.group(0)), t)
        if t2 != t:
            open(p, "w", encoding="utf-8").write(t2)
    for p in proofs:
        t = open(p, encoding="utf-8").read()
        last = dict(PARAMETERS, **FIGURES) if p.startswith("crates/figures/") else PARAMETERS
        t2 = TOKEN.sub(lambda m: last.get(m.group(0), m.group(0)), t)
        if t2 != t:
            open(p, "w", encoding="utf-8").write(t2)
    with open("tools/names/respelled.txt", "w", encoding="utf-8") as f:
        f.writelines(f"{a} {b}\n" for a, b in sorted(turn.items()))
    print(len(turn), "names respelled")


main()
