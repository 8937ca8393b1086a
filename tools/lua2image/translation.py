"""From a rule's source to its image.

    translated(source)     the Translation of a source's bytes, or Refused

It raises Unusable where luac5.3 is missing or isn't as it should be."""
import re
import shutil
from collections import namedtuple

import luac_image
from files import Unusable
from inputs import take_inputs
from oracle.answers import DONE
from oracle.image import Prototype, parse, printed
from oracle.image import Refused as NoImage
from oracle.rules import check
from refusals import in_order, long_strings, objections, reworded, too_large, too_long, warnings
from upvalues import Known, put_in

NO_LUAC = "luac5.3 is needed and isn't found on PATH: install Lua 5.3 (Debian, Ubuntu: apt-get install lua5.3)"
# Lua takes a file for a compiled one by its first byte, and lets a line with # stand before it. luac doesn't test what is in such a file.
COMPILED = re.compile(rb'(?:\xef\xbb\xbf)?(?:#[^\n]*\n)?\x1b')

# functions: luac's, in the image's order; warnings: [(line, message), ..]
Translation = namedtuple('Translation', 'functions prototypes image warnings')


class Refused(Exception):
    """A file that is refused: [(line, message), ..]."""


def demand_none(found):
    if found:
        raise Refused(in_order(found))


def compiled(source):
    """The functions of a source, as luac5.3 makes them."""
    if COMPILED.match(source):
        raise Refused([(1, 'a compiled file: give the source')])
    if shutil.which('luac5.3') is None:
        raise Unusable(NO_LUAC)
    try:
        return luac_image.numbered(luac_image.compiled(source))
    except luac_image.Refused as refusal:
        complaint = reworded(str(refusal))
        raise Refused([complaint]) if complaint else Unusable(refusal)


def resolve(functions):
    """Puts inputs and upvalues in, and hands back the warnings."""
    take_inputs(functions[0])
    demand_none(too_large(functions))
    found = long_strings(functions)
    known = Known(functions)
    doubts = warnings(functions, known)
    put_in(functions, known)
    demand_none(found + objections(functions))
    return in_order(doubts)


def prototypes_of(functions):
    try:
        made = [Prototype(function.registers, function.parameters, function.constants,
                          [luac_image.translated(function, word) for word in function.code], luac_image.descriptors(function)) for function in functions]
    except luac_image.Refused as refusal:
        raise Unusable("luac5.3's chunk has an instruction that %s" % refusal)
    if any(not 0 <= byte <= 255 for prototype in made for five in prototype.instructions for byte in five):
        raise Unusable("luac5.3's chunk has an operand that is no byte")
    return made


def demand_accepted(image):
    """What luac makes of a source keeps the reader's and the checker's rules; it is tried all the same."""
    try:
        number = check(parse(image.encode()))[0]
    except NoImage as refusal:
        number = refusal.args[0]
    if number != DONE:
        raise Unusable("luac5.3's chunk isn't as it should be: the image would be refused with %d" % number)


def translated(source):
    functions = compiled(source)
    doubts = resolve(functions)
    prototypes = prototypes_of(functions)
    image = printed(prototypes)
    demand_none(too_long(functions, image))
    demand_accepted(image)
    return Translation(functions, prototypes, image, doubts)
