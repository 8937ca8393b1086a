"""A rule's inputs: `local today, closed = ...` as its first statement.

    inputs(main)          how many values the first instruction takes of `...`; 0 where it is another one, or takes an open number
    is_repeated(main)     whether a jump leads back to the first instruction
    take_inputs(main)     where there are inputs that the machine can give, makes them the parameters of the main function

luac begins with an instruction that puts so many of the arguments into the registers from 0 on, nil where there are none left. That is what the
machine does with the parameters of prototype 0 before it begins, so the instruction goes."""
from flow import next_places
from luac_image import decoded
from oracle.machine import MOST_ARGUMENTS


def inputs(main):
    name, a, b, _ = decoded(main.code[0])
    return b - 1 if name == 'VARARG' and a == 0 and b > 1 else 0


def is_repeated(main):
    return any(0 in next_places(main, p) for p in range(len(main.code)))


def take_inputs(main):
    count = inputs(main)
    if not 0 < count <= MOST_ARGUMENTS or is_repeated(main):
        return
    main.parameters = count
    del main.code[0], main.lines[0]
    main.locals = [(name, max(0, start - 1), max(0, end - 1)) for name, start, end in main.locals]
