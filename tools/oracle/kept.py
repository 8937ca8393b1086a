"""The lists of outside cases that the repository keeps, each of them made by a script: crates/NAME/stdin and stdout.

    checking(usage)                      whether the command line says --check
    keep(crate, stdin, stdout, check)    writes a crate's list and what must be answered; with `check` it only tells what is stale"""
import os
import sys

ROOT = os.path.realpath(os.path.join(os.path.dirname(__file__), '..', '..'))


def checking(usage):
    if sys.argv[1:] not in ([], ['--check']):
        print(usage, file=sys.stderr)
        sys.exit(2)
    return sys.argv[1:] == ['--check']


def content(path):
    """The bytes of a file, or None where there is none."""
    try:
        with open(path, 'rb') as file:
            return file.read()
    except FileNotFoundError:
        return None


def keep(crate, stdin, stdout, check):
    stale = []
    for name, text in (('stdin', stdin), ('stdout', stdout)):
        path = os.path.join(ROOT, 'crates', crate, name)
        if not check:
            with open(path, 'wb') as file:
                file.write(text.encode())
        elif content(path) != text.encode():
            stale.append('crates/%s/%s is stale: %s makes another' % (crate, name, os.path.relpath(os.path.realpath(sys.argv[0]), ROOT)))
    if stale:
        sys.exit('\n'.join(stale))
