"""The numbers that the machine answers: document 01's table of them, and those that document 02 adds."""

# A run: the outermost Return is done. Outside runs: nothing was refused.
DONE = 0

# Reading: a line; a frame; a limit; the end.
BAD_LINE, BAD_FRAME, TOO_MANY, BAD_END = 1, 2, 3, 4
# What is lent is too short; no image reads to the storage.
SHORT, NO_IMAGE = 5, 6

# The checker's rules; the last is document 02's (6/12): an upvalue or a descriptor.
NOT_CARRIED, STRAY_BYTE, NO_REGISTER, NO_CONSTANT, NO_TARGET, NO_PROTOTYPE, NO_UPVALUE = 10, 11, 12, 13, 14, 15, 16

BAD_ARGUMENTS = 20

# Lua errors: an operand that is unfit, by the operation that finds it. A loop's are those of the Sub and the Add within it.
UNFIT_OPERAND = {
    'Add': 30, 'Sub': 31, 'Mul': 32, 'Div': 33, 'IDiv': 34, 'Mod': 35, 'Minus': 36, 'BitAnd': 37, 'BitOr': 38, 'BitXor': 39, 'BitNot': 40,
    'ShiftLeft': 41, 'ShiftRight': 42, 'Less': 43, 'LessEq': 44, 'NumericForPrep': 31, 'NumericForLoop': 30,
}
# Lua errors: an integer divided by an integer zero (document 02, 5/12), "tested after operand fitness".
ZERO_DIVISOR = {'IDiv': 45, 'Mod': 46}
# Lua errors of Call: of no function; with as many activations as may be; past the registers that may be.
NO_FUNCTION, TOO_DEEP, TOO_WIDE = 50, 51, 52
# Lua errors of Closure (document 02, 6/12): no entry is free; fewer cells are free than it needs.
NO_ENTRY, FEW_CELLS = 53, 54
LUA_ERRORS = {*UNFIT_OPERAND.values(), *ZERO_DIVISOR.values(), NO_FUNCTION, TOO_DEEP, TOO_WIDE, NO_ENTRY, FEW_CELLS}

FAULT = 60
RUNNING = 70
