"""Where a file's bytes come from and where an image goes: standard input and output, files, pipes and devices.

    opened(path)                   FILE to read from; '-' is standard input
    demand_apart(file, answers, target)
                                   refuses what would read or write over the opened FILE; answers: whether standard input is to have an answer
    read_answer()                  all of standard input
    write(target, data)            to a file, whole or not at all; None and '-' are standard output

All raise Unusable where that can't be done."""
import os
import shutil
import stat
import sys
import tempfile


class Unusable(Exception):
    """A command that can't be carried out."""


def standard(stream, name):
    """A standard stream of bytes; one that is closed is None in Python."""
    if stream is None:
        raise Unusable('standard %s is closed' % name)
    return stream.buffer


def opened(path):
    return standard(sys.stdin, 'input') if path == '-' else open(path, 'rb')


def read_answer():
    return standard(sys.stdin, 'input').read()


# ---- which file is which

def status_of(target):
    """What os.stat says of where an image goes; None where nothing is there yet."""
    if target is None or target == '-':
        return os.fstat(standard(sys.stdout, 'output').fileno())
    return os.stat(target) if os.path.exists(target) else None


def is_standard_output(target):
    return target in (None, '-') or sys.stdout is not None and os.path.exists(target) and os.path.samestat(status_of(target), status_of('-'))


def demand_apart(file, answers, target):
    own = os.fstat(file.fileno())
    if answers and os.path.samestat(own, os.fstat(standard(sys.stdin, 'input').fileno())):
        raise Unusable('--explain reads the answer from standard input: FILE has to be another file')
    goes_to = status_of(target)
    if goes_to and stat.S_ISREG(own.st_mode) and os.path.samestat(own, goes_to):
        raise Unusable('%s is FILE itself: what is written would take its place' % ('standard output' if target in (None, '-') else target))


# ---- writing

def is_replaceable(path):
    """Whether another file may take this one's place: not that of a device, a pipe or a stream's name, nor where only the file can be written."""
    place = os.path.realpath(path)
    if os.path.abspath(path).startswith(('/dev/', '/proc/')) or os.path.exists(place) and not os.path.isfile(place):
        return False
    return os.access(os.path.dirname(place), os.W_OK | os.X_OK) and (not os.path.exists(place) or os.access(place, os.W_OK))


def replace(path, data):
    """Writes a file beside it first: a link stays one, and what was there keeps its permissions."""
    place = os.path.realpath(path)
    with tempfile.TemporaryDirectory(dir=os.path.dirname(place)) as folder:
        whole = os.path.join(folder, 'whole')
        with open(whole, 'wb') as file:
            file.write(data)
        if os.path.exists(place):
            shutil.copymode(place, whole)
        os.replace(whole, place)


def write(target, data):
    try:
        if is_standard_output(target):
            # a stream of its own, so that nothing is left in Python's when this fails
            with open(standard(sys.stdout, 'output').fileno(), 'wb', closefd=False) as file:
                file.write(data)
        elif is_replaceable(target):
            replace(target, data)
        else:
            with open(target, 'wb') as file:
                file.write(data)
    except OSError as trouble:
        name = 'standard output' if target in (None, '-') else target
        raise Unusable("%s can't be written: %s" % (name, trouble.strerror))
