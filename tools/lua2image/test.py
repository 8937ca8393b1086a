#!/usr/bin/env python3
"""Tests of lua2image: from outside what it writes, how it ends, and of some rules also what the image answers; from inside what takes many rules.

    python3 tools/lua2image/test.py        needs lua5.3 and luac5.3 (Debian's package lua5.3), and no network"""
import collections
import os
import re
import resource
import stat
import subprocess
import sys
import tempfile
import unittest
from unittest import mock

sys.dont_write_bytecode = True
HERE = os.path.dirname(os.path.abspath(__file__))
TOOLS = os.path.join(HERE, '..')
sys.path[1:1] = [TOOLS, os.path.join(TOOLS, 'luac')]
import explain
import luac_image
from files import Unusable
from oracle import machine
from oracle.dice import Dice
from oracle.figures import figure
from oracle.values import NUMBER, boolean, double, number
from random_rules import rule
from translation import Refused, translated

COMMAND = os.path.join(HERE, 'lua2image')
EXAMPLES = os.path.join(HERE, '..', '..', 'examples')
SESSION = os.path.join(TOOLS, 'oracle', 'session')
RUN_LUA = os.path.join(TOOLS, 'luac', 'run.lua')

# The documents' operations in the order of their numbers.
NAMES = dict(zip([*range(0, 4), 10, 12, *range(14, 20), 24, 25, *range(27, 39), *range(40, 45)],
                 ('Move LoadConstant LoadBool LoadNil Call Return Jump Test TestSet Closure NumericForPrep NumericForLoop GetUpValue SetUpValue Eq Less '
                  'LessEq Not Minus BitNot Add Sub Mul Div IDiv Mod BitAnd BitOr BitXor ShiftLeft ShiftRight').split()))

NO_GLOBALS = "'%s' is a global: rules can't use globals; "
INPUT = "give the value to the rule as an input: 'local %s = ...' as its first statement"
ANY_NUMBER = "'...' stands for any number of values: "
NOT_FIRST = ANY_NUMBER + "rules can't use it but to name their inputs, with 'local a, b = ...' as the first statement"
AGAIN = "a loop or a goto leads back to the inputs: a rule takes them once; put 'local a, b = ...' before it"
OUTER = '%d variables of outer functions in one function, constants not counted: at most 8 are carried; pass some of them as arguments'

# Name, source, and every message with its line.
REFUSALS = (
    ('global of the library', 'local x = 1\n\nreturn string.format("%d", x), 1', [
        (3, NO_GLOBALS % 'string.format' + 'return the parts as values of their own')]),
    ('the clock', 'local x = os.time()\nreturn os.clock()', [
        (1, NO_GLOBALS % 'os.time' + INPUT % 'today'), (2, NO_GLOBALS % 'os.clock' + INPUT % 'today'),
        (2, "'return f(...)' is a tail call: rules can't make tail calls; write 'return (f(...))' for one value, "
            "or keep the values in locals and return those")]),
    ('mathematics', 'local a = 7\na = math.floor(a / 2)\na = math.huge\na = math.sqrt(a)\na = math.random', [
        (2, NO_GLOBALS % 'math.floor' + "write 'a // b', or 'x // 1 | 0'"), (3, NO_GLOBALS % 'math.huge' + 'write 1e999'),
        (4, NO_GLOBALS % 'math.sqrt' + 'write what is needed as a local function'), (5, NO_GLOBALS % 'math.random' + INPUT % 'number')]),
    ('global', 'local x = 1\nx = cutoff\nreturn x', [
        (2, NO_GLOBALS % 'cutoff' + 'make it a local, or ' + INPUT % 'cutoff')]),
    ('global of a table', 'local x = 1\nx = record.closed\nx = arg[x]\nreturn x', [
        (2, NO_GLOBALS % 'record.closed' + 'make it a local, or ' + INPUT % 'closed'),
        (3, NO_GLOBALS % 'arg[...]' + 'make it a local, or ' + INPUT % 'today')]),
    ('global that is set', 'local x = 1\nfunction rule() return 1 end', [
        (2, NO_GLOBALS % 'rule' + 'make it a local')]),
    ('globals as a table', 'local x\nx = _ENV', [
        (2, NO_GLOBALS % '_ENV' + 'keep each value in a local of its own')]),
    ('globals in a function', 'local function f()\n  return cutoff, _ENV\nend', [
        (2, NO_GLOBALS % 'cutoff' + 'make it a local, or ' + INPUT % 'cutoff'),
        (2, NO_GLOBALS % '_ENV' + 'keep each value in a local of its own')]),
    ('table', 'local x = 1\nlocal t = {x, 2}', [
        (2, "a table is made here: rules can't use tables; keep each value in a local of its own")]),
    ('field read', 'local t\nlocal x = t.record.age', [
        (2, "'.record.age' is a field of a table: rules can't use tables; keep each value in a local of its own")]),
    ('field set', 'local t\nt.age = 1', [
        (2, "'.age' is a field of a table: rules can't use tables; keep each value in a local of its own")]),
    ('element', 'local t\nlocal i = 1\nt[i] = t[i]', [
        (3, "'[...]' is a field of a table: rules can't use tables; keep each value in a local of its own")]),
    ('varargs', 'local function f(...)\n  local x = ...\n  return ...\nend', [
        (2, ANY_NUMBER + "functions can't use it; give each parameter a name"),
        (3, ANY_NUMBER + "functions can't use it; give each parameter a name")]),
    ('inputs that come late', 'local x = 1\nlocal today = ...', [(2, NOT_FIRST)]),
    ('inputs behind a value', 'local x, today = 1, ...', [(1, NOT_FIRST)]),
    ('inputs that come twice', 'local today = ...\nlocal closed, hold = ...', [(2, NOT_FIRST)]),
    ('inputs without a number', 'return ...', [(1, NOT_FIRST)]),
    ('inputs that a goto leads to', '::top::\nlocal a = ...\ngoto top', [(2, AGAIN)]),
    ('inputs in a loop', 'while (...) do\nend', [(1, AGAIN)]),
    ('inputs in a repeat', 'repeat\n  local a, b = ...\nuntil a', [(2, AGAIN)]),
    ('nine inputs', 'local a, b, c, d, e, f, g, h, i = ...', [
        (1, '9 inputs: a rule takes at most 8; use fewer, or put yes and no together as the bits of an integer')]),
    ('nine upvalues', 'local a, b = ...\nlocal c, d, e, f, g, h, i = a, a, a, a, a, a, a\nlocal function all()\n  return a + b + c + d + e + f + g +\n    h + i\nend', [
        (5, OUTER % 9)]),
    ('nine upvalues for a function within', (
        'local a = ...\nlocal b, c, d, e = a, a, a, a\nlocal f, g, h, i = a, a, a, a\nlocal function outer()\n  return function()\n    return a, b, c, d, e, f, g, h, i\n'
        '  end\nend'), [(4, OUTER % 9), (6, OUTER % 9)]),
    ('_ENV as an upvalue', 'local function f()\n  local x = _ENV\n  return x\nend', [
        (2, NO_GLOBALS % '_ENV' + 'keep each value in a local of its own')]),
    ('a global for a function within', 'local function f()\n  return function()\n    return cutoff\n  end\nend', [
        (3, NO_GLOBALS % 'cutoff' + 'make it a local, or ' + INPUT % 'cutoff')]),
    ('upvalue read for its field', 'local t\nlocal function f()\n  return t.x\nend', [
        (3, "'.x' is a field of a table: rules can't use tables; keep each value in a local of its own")]),
    ('concatenation', 'local a = "x"\nreturn a .. "y"', [
        (2, "'..' joins strings: rules can't make strings; return the parts as values of their own")]),
    ('length', 'local a = "x"\nreturn #a', [
        (2, "'#' asks for a length: rules can't take lengths; give the length as a number")]),
    ('power', 'local a = 2\nreturn a ^ 2', [
        (2, "'^' raises to a power: rules can't do that; multiply, or shift for powers of 2")]),
    ('method', 'local a = "x"\nlocal b = a:upper()', [
        (2, "':upper' calls a method: rules can't call methods; call a local function")]),
    ('tail call', 'local function f() end\nreturn f(1)', [
        (2, "'return f(...)' is a tail call: rules can't make tail calls; write 'return (f(...))' for one value, "
            "or keep the values in locals and return those")]),
    ('open arguments', 'local function f() end\nf(1, f(2))', [
        (2, "the last argument is a call that gives any number of values; for one value put it in parentheses: 'f(a, (g(b)))'")]),
    ('open results', 'local function f() end\nreturn 1, f(2)', [
        (2, "the last value returned is a call that gives any number of values; for one value put it in parentheses: 'return a, (g(b))'")]),
    ('for in', 'local f, n = nil, 0\nfor i in f do\n  n = n + i\nend', [
        (2, "'for ... in' asks a function for each next value: rules can't use it; count with 'for i = first, last do'")]),
    ('several', 'local a = {}\nprint(a)\nreturn #a', [
        (1, "a table is made here: rules can't use tables; keep each value in a local of its own"),
        (2, NO_GLOBALS % 'print' + 'return the values'),
        (3, "'#' asks for a length: rules can't take lengths; give the length as a number")]),
    ('functions', 'local function f() end\n' * 32, [
        (32, '33 functions, the main program among them: an image has at most 32; put some of them together')]),
    ('constants', 'local x\n' + ''.join('x = %d\n' % i for i in range(257)), [
        (258, '257 constants in one function: at most 256 are carried; split it into several functions')]),
    ('instructions', 'local x\n' + 'x = 1\n' * 4095, [
        (4096, '4097 instructions in one function: at most 4,096 are carried; split it into several functions')]),
    ('string', 'local x\nx = "%s"' % ('a' * 65), [
        (2, 'a string of 65 bytes: at most 64 are carried; use a shorter one')]),
    ('constants with those of an outer function', 'local year = 365\nlocal function f(x)\n%s  x = year\nend' % ''.join(
        '  x = %d.5\n' % i for i in range(256)), [
        (259, '257 constants in one function: at most 256 are carried; split it into several functions')]),
    ('string of an outer function', 'local x = "%s"\nlocal function f()\n  return x\nend' % ('a' * 65), [
        (1, 'a string of 65 bytes: at most 64 are carried; use a shorter one')]),
    ('bytes', 'local function f()\n local x\n%send\nlocal function g()\n local x\n%send\n' % (2 * ('x = 1\n' * 3000,)), [
        (5036, 'the image passes 65,536 bytes here and has 78159: more are not read; make the rule shorter')]),
    ('registers', 'local f\nf(%s)' % ','.join('1' * 256), [
        (2, "function or expression needs too many registers near '1'; a function has at most 254, so use fewer locals and arguments, "
            'or split it into several functions')]),
    ('locals', 'local x = 1\n' * 201, [
        (201, "too many local variables (limit is 200) in main function near '='; use fewer, or split it into several functions")]),
    ('syntax', 'local x = 1\nlocal = 2', [
        (2, "<name> expected near '='")]),
)

# The largest that is carried, next to the limits above.
CARRIED = (
    ('functions', 'local function f() end\n' * 31),
    ('constants', 'local x\n' + ''.join('x = %d\n' % i for i in range(256))),
    ('instructions', 'local x\n' + 'x = 1\n' * 4094),
    ('string', 'local x\nx = "%s"' % ('a' * 64)),
    ('calls in parentheses', 'local function f(a) return a end\nf((f(1)))\nreturn (f(2))'),
    ('a power of constants', 'return 2 ^ 3'),
    ('eight inputs', 'local a, b, c, d, e, f, g, h = ...'),
    ('inputs before a loop', 'local a = ...\n::top::\nif a then goto top end'),
    ('eight upvalues', 'local a, b = ...\nlocal c, d, e, f, g, h = a, a, a, a, a, a\nlocal function all()\n  return a + b + c + d + e + f + g + h\nend'),
    ('eight upvalues and constants', (
        'local a, b = ...\nlocal c, d, e, f, g, h = a, a, a, a, a, a\nlocal year, week, name, on = 365, 7, "x", true\nlocal function all()\n'
        '  return a + b + c + d + e + f + g + h, year, week, name, on\nend')),
    ('a constant of an outer function that is there already', 'local year = 255.5\nlocal function f(x)\n%s  x = year\nend' % ''.join(
        '  x = %d.5\n' % i for i in range(256))),
)

SOURCE = '''local a, b = nil, "it's\\n"
local function older(x, y)
  return x > y and not (y == 0.5)
end
for i = 3, 1, -1 do
  a = a or older(i, 2)
end
return a or b, -7 // 2
'''
LISTING = '''\
prototype 0, the main program: registers 10, parameters 0
0:0     line 1     LoadNil         r0 = nil
0:1     line 1     LoadConstant    r1 = "it's\\010"
0:2     line 4     Closure         r2 = prototype 1
0:3     line 5     LoadConstant    r3 = 3
0:4     line 5     LoadConstant    r4 = 1
0:5     line 5     LoadConstant    r5 = -1
0:6     line 5     NumericForPrep  r3 = r3 - r5, go to 0:14
0:7     line 6     Test            unless r0 go to 0:9
0:8     line 6     Jump            go to 0:14
0:9     line 6     Move            r7 = r2
0:10    line 6     Move            r8 = r6
0:11    line 6     LoadConstant    r9 = 2
0:12    line 6     Call            r7 = r7(r8..r9)
0:13    line 6     Move            r0 = r7
0:14    line 5     NumericForLoop  r3 = r3 + r5, unless past r4: r6 = r3, go to 0:7
0:15    line 8     TestSet         unless r0 go to 0:17, else r3 = r0
0:16    line 8     Jump            go to 0:18
0:17    line 8     Move            r3 = r1
0:18    line 8     LoadConstant    r4 = -4
0:19    line 8     Return          r3..r4
0:20    line 8     Return          no value
prototype 1, the function at line 2: registers 3, parameters 2
1:0     line 3     Less            if r1 < r0 go to 1:2
1:1     line 3     Jump            go to 1:4
1:2     line 3     Eq              if r1 == 0.5 go to 1:4
1:3     line 3     Jump            go to 1:5
1:4     line 3     LoadBool        r2 = false, go to 1:6
1:5     line 3     LoadBool        r2 = true
1:6     line 3     Return          r2
1:7     line 4     Return          no value
'''

# luac folds no string: what reads them as figures is the machine.
YEARS = '''local years = " 12 "
return years * 365, -"7", 7 // "2", "2.5" + 1, "0x0A" | 0, years
'''
YEARS_LISTING = '''\
prototype 0, the main program: registers 7, parameters 0
0:0     line 1     LoadConstant    r0 = " 12 "
0:1     line 2     Mul             r1 = r0 * 365
0:2     line 2     LoadConstant    r2 = "7"
0:3     line 2     Minus           r2 = -r2
0:4     line 2     IDiv            r3 = 7 // "2"
0:5     line 2     Add             r4 = "2.5" + 1
0:6     line 2     BitOr           r5 = "0x0A" | 0
0:7     line 2     Move            r6 = r0
0:8     line 2     Return          r1..r6
0:9     line 2     Return          no value
'''
# 4380, -7, 3, 3.5, 10 and the text.
YEARS_ANSWER = '''\
f0000000000900000800
b002000000000000111c
b002fffffffffffffff9
b0020000000000000003
b003400c000000000000
b002000000000000000a
b00420313220
'''

# luac folds a remainder of two constants where it is neither zero nor NaN: the same as the machine's, which has the others to work out.
PERIODS = '''local forever = 1e999
return 1.0 % forever, 1.0 % 1e999, -1.0 % forever, -1.0 % 1e999, -4.0 % 2.0
'''
PERIODS_LISTING = '''\
prototype 0, the main program: registers 6, parameters 0
0:0     line 1     LoadConstant    r0 = inf
0:1     line 2     Mod             r1 = 1.0 % r0
0:2     line 2     LoadConstant    r2 = 1.0
0:3     line 2     Mod             r3 = -1.0 % r0
0:4     line 2     LoadConstant    r4 = inf
0:5     line 2     Mod             r5 = -4.0 % 2.0
0:6     line 2     Return          r1..r5
0:7     line 2     Return          no value
'''
# 1.0 twice, infinity twice, and -0.0.
PERIODS_ANSWER = '''\
f0000000000700000600
b0033ff0000000000000
b0033ff0000000000000
b0037ff0000000000000
b0037ff0000000000000
b0038000000000000000
'''

# A rule that is told its inputs, its arguments, and what comes of them: a verdict, an age, and an input that isn't given.
TOLD = '''local today, closed, hold, never = ...
if today - closed > 2555 and not hold then return "release", today - closed, never end
return "keep", today - closed, never
'''
TOLD_ANSWERS = (
    (['20407', '17531', 'false'], 'b00472656c65617365\nb0020000000000000b3c\nb000\n'),
    (['20407', '17531', 'true', '7'], 'b0046b656570\nb0020000000000000b3c\nb0020000000000000007\n'),
    ([' 0x10 ', '1e3', 'nil', '-.5'], 'b0046b656570\nb003c08ec00000000000\nb003bfe0000000000000\n'),
)

# Helpers that use helpers and constants, of every kind and through several functions; constants need no closing.
HELPERS = '''local year, name, on, off, none, half = 365, "x", true, false, nil, 0.5
local function days(years)
  return years * year
end
local copy = days
local function kept(age)
  local weeks = 52
  local function deeper(n)
    return n <= copy(7) and weeks
  end
  return (deeper(age))
end
local function factorial(n)
  if n < 2 then return 1 end
  return n * factorial(n - 1)
end
local sum = 0
for i = 1, 3 do
  local three = 3
  local f = function(x) return x * three end
  sum = sum + f(i)
  if sum > 100 then break end
end
local function all()
  return name, on, off, none, half
end
local a, b, c, d, e = all()
return kept(2555), kept(2556), factorial(5), sum, a, b, c, d, e, (days(2))
'''
HELPERS_LISTED = (
    '1:0     line 3     LoadConstant    r1 = 365\n', '2:0     line 7     LoadConstant    r1 = 52\n',
    'prototype 2, the function at line 6: registers 5, parameters 1, upvalues u0 = r7\n',
    'prototype 3, the function at line 8: registers 3, parameters 1, upvalues u0 = u0\n',
    '3:0     line 9     GetUpValue      r1 = u0\n', '3:5     line 9     LoadConstant    r1 = 52\n',
    'prototype 4, the function at line 13: registers 3, parameters 1, upvalues u0 = r9\n',
    '4:4     line 15    GetUpValue      r1 = u0\n', '6:1     line 25    LoadBool        r1 = true\n',
    '6:3     line 25    LoadNil         r3 = nil\n', '0:23    line 22    Jump            go to 0:24\n',
)
HELPERS_SAID = '''\
52
false
120
18
"x"
true
false
nil
0.5
730
'''

# Rules whose functions use and set what is outside of them, with what they are told.
HOLDING = (
    ('an input in a function', 'local today, closed = ...\nlocal function age()\n  return today - closed\nend\nreturn (age())', '20407 17531'),
    ('assigned before', 'local cutoff = 1\ncutoff = 2\nlocal function old(x)\n  return x > cutoff\nend\nreturn (old(2)), (old(3))', ''),
    ('assigned later', 'local cutoff = 1\nlocal function old(x)\n  return x > cutoff\nend\nlocal a = old(2)\ncutoff = 2\nreturn a, (old(2))', ''),
    ('one value or another', 'local c = ...\nlocal x = c and 1 or 2\nlocal y = c == 3\nlocal function f()\n  return x, y\nend\nlocal a, b = f()\nreturn a, b', '3'),
    ('worked out', 'local year = 365\nlocal keep = 7 * year\nlocal function f()\n  return keep\nend\nreturn (f())', ''),
    ('what a call gives', (
        'local function f() return 1, 2 end\ndo local a, b = 1, 2 end\nlocal x, y = f()\nlocal function g()\n  return y, x\nend\nlocal a, b = g()\nreturn a, b'), ''),
    ('an input or a constant', 'local x = ...\nif x then x = 1 end\nlocal y = x\nlocal function f()\n  return y\nend\nreturn (f())', 'true'),
    ('a parameter', 'local function f(x)\n  return function()\n    return x\n  end\nend\nlocal g = f(7)\nreturn (g())', ''),
    ('set', 'local n = 1\nlocal function f()\n  n = n + 2\nend\nf()\nf()\nreturn n', ''),
    ('set beside', 'local n = 1\nlocal function f()\n  n = 2\nend\nlocal function g()\n  return n\nend\nlocal a = g()\nf()\nreturn a, (g())', ''),
    ('set from deeper', (
        'local n = 1\nlocal function f()\n  local function g()\n    n = 2\n  end\n  local a = n\n  g()\n  return a, n\nend\nlocal a, b = f()\nreturn a, b'), ''),
    ('a function that changes', 'local f\nlocal function g()\n  return (f())\nend\nf = function() return 1 end\nlocal a = g()\nf = function() return 2 end\nreturn a, (g())', ''),
    ('a function that gives way', 'local function f()\n  return f\nend\nlocal g = f\nf = 7\nreturn (g())', ''),
    ('closed by a loop', 'local k\nfor i = 1, 3 do\n  local x = i\n  local f = function() x = x * 10 return x end\n  if i < 3 then k = f end\nend\nreturn (k()), (k())', ''),
    ('what a loop counts', (
        'do local a, b, c, d = 1, 2, 3, 9 end\nlocal k\nfor i = 1, 2 do\n  local f = function() return i end\n  k = k or f\nend\nreturn (k())'), ''),
    ('a step that is set', 'local step, n = 0, 0\nlocal function f() step = 1 end\nf()\nfor i = 1, 3, step do n = n + i end\nreturn n', ''),
    ('a constant that is hidden by what is set', (
        'local x = 1\nlocal function one() return x end\nlocal x = 2\nlocal function two() x = x + one() return x end\nreturn (two()), (two()), (one())'), ''),
    ('a cut-off that is remembered', (
        'local today = ...\nlocal function since(day)\n  local asked = 0\n  return function(closed)\n    asked = asked + 1\n    return closed < day, asked\n  end\nend\n'
        'local old = since(today - 2555)\nlocal a = old(17000)\nlocal b, n = old(20000)\nreturn a, b, n'), '20407'),
)

# Steps of 0: the source, and the lines that are warned about.
STEPS = (
    ('for i = 1, 2, 0 do\nend', [1]),
    ('local x\nfor i = 1, 2, -0 do end\nfor i = 1, 2, 0.0 do x = i end', [2, 3]),
    ('local step = 0\nlocal again = step\nlocal function f()\n  for i = 1, 2, again do end\nend', [4]),
    ('for i = 1, 2 do end\nfor i = 2, 1, -1 do end\nfor i = 0, 0, 0.5 do end', []),
    ('local step = 0\nif step == 1 then step = 1 end\nfor i = 1, 2, step do end', []),
    ('local step = ...\nfor i = 1, 2, step do end', []),
    ('local step = 0\nlocal function f() step = 1 end\nf()\nfor i = 1, 2, step do end', []),
    ('local step = 0\nlocal function f() step = 1 end\nlocal same = step\nfor i = 1, 2, same do end', []),
    ('local step = 0\nlocal function f() return step end\nfor i = 1, 2, step do end', [3]),
)
NO_STEP = "warning: the step of this 'for' is 0: the loop has no end, or no pass"

# What a luac5.3 may do that isn't as it should be, as the lines of a shell, and what is said of it.
STRANGE_LUACS = (
    ('exit 1', 'luac5.3 ended with status 1 and said nothing'),
    ('echo nonsense >&2; exit 1', 'nonsense'),
    ('kill -SEGV $$', 'luac5.3 was ended by signal 11'),
    ('exit 0', 'luac5.3 wrote no chunk'),
    (': > "$2"', "luac5.3's chunk ends early"),
    ("printf '\\033LuaT12345678901234567890123456789' > \"$2\"", "luac5.3's chunk isn't one of Lua 5.3 on a machine of 64 bits"),
)

# Each Lua error by a rule that raises it, what the image answers, and that in words. Operators of two operands come below.
ERRORS = (
    ('local a\nreturn -a', 'f0240000000200000101', "line 2: the operand of `-`, `a`, isn't a number, nor a string that reads as one"),
    ('local a = "x"\nreturn ~a', 'f0280000000200000101', 'line 2: the operand of `~`, `a`, has no integer'),
    ('local a = 7\nreturn 1, a //\n  0', 'f02d0000000300000202', 'line 2: the right side of `//`, 0, is zero'),
    ('local a = "0"\nreturn 7 % a', 'f02e0000000200000102', 'line 2: the right side of `%`, `a`, is zero'),
    ('local a\nreturn nil // 0', 'f0220000000200000101', "line 2: the left side of `//`, nil, isn't a number, nor a string that reads as one"),
    ('return "7 years" * 365', 'f0200000000100000001', 'line 1: the left side of `*`, "7 years", isn\'t a number, nor a string that reads as one'),
    ('return 1.5 & nil', 'f0250000000100000001', 'line 1: the left side of `&`, 1.5, has no integer'),
    ('local a = 8\nreturn a < "9"', 'f02b0000000200000102',
     'line 2: the right side of `<` (the left side of `>`), "9", can\'t be compared with the other side'),
    ('local a\nreturn 7 > a', 'f02b0000000200000101',
     "line 2: the left side of `<` (the right side of `>`), `a`, can't be compared with the other side"),
    ('local a\nfor i = a, 2 do end', 'f01f0000000500000401', "line 2: the start of the `for` isn't a number"),
    ('local a\nfor i = 1, 2, a do end', 'f01f0000000500000403', "line 2: the step of the `for` isn't a number"),
    ('local a = "9"\nfor i = 1, a do\n  a = i\nend', 'f01e0000000600000602', "line 2: the limit of the `for` isn't a number"),
    ('local f = 7\n\nf()', 'f0320000000300000200', 'line 3: a call of what is no function, `f`'),
    ('local function f(g)\n  return (g(g))\nend\nreturn (f(f))', 'f0330000003101000200',
     'line 2: more than 16 calls inside one another, the main program counted'),
    ('local function f(g)\n  local %s\n  return (g(g))\nend\nreturn (f(f))' % ', '.join('v%d' % i for i in range(150)), 'f0340000003801000300',
     'line 3: a call that would pass 2,048 registers in all running functions'),
    ('local f\nfor i = 1, 65 do\n  f = function() end\nend', 'f035000000c700000500', 'line 3: more than 64 functions made'),
    ('local f\nfor i = 1, 43 do\n  local a, b, c = i, i, i\n  f = function() a = b + c end\nend', 'f0360000013000000800',
     'line 4: more than 128 variables that functions hold'),
)
# Sign, answer, and what an unfit operand is told.
NO_NUMBER, NO_INTEGER = "isn't a number, nor a string that reads as one", 'has no integer'
OPERATORS = (
    ('+', 30, NO_NUMBER), ('-', 31, NO_NUMBER), ('*', 32, NO_NUMBER), ('/', 33, NO_NUMBER), ('//', 34, NO_NUMBER), ('%', 35, NO_NUMBER),
    ('&', 37, NO_INTEGER), ('|', 38, NO_INTEGER), ('~', 39, NO_INTEGER), ('<<', 41, NO_INTEGER), ('>>', 42, NO_INTEGER),
)
# Sign, the one that luac makes of it with the sides exchanged, and the answer.
COMPARISONS = (('<', '>', 43), ('<=', '>=', 44))
LUA_ERRORS = {*range(30, 47), *range(50, 55)}

# Images that aren't run, their answers and those in words.
NOT_RUN = (
    ('a00100\nB0\ne001\n', 'f0010000000000000100',
     'not an image: line 1 counted from 0, a line that is empty, not paired lowercase hexadecimal, or not ended by LF\n'),
    ('a00100\nb005\ne001\n', 'f0020000000000000100', 'not an image: line 1 counted from 0, an unknown kind, or a wrong length, tag, order or field\n'),
    ('a00100\n' * 33, 'f0030000000000002000', 'not an image: line 32 counted from 0, too many bytes, prototypes, descriptors, constants or instructions\n'),
    ('a00100\nc00c00000000\n', 'f0040000000000000200', 'not an image: line 2 counted from 0, no e0 line at the end, or a byte after it\n'),
    ('a00100\nc06300010203\ne001\n', 'f00a0000000000000000',
     "refused by the checker with 10: an operation that isn't carried, or a count of 255\n"
     '0:0      operation 99    bytes 63 00 01 02 03, refused with 10\n'),
    ('a00100\nc00000000001\nc00c00000000\ne001\n', 'f00b0000000000000000',
     "refused by the checker with 11: an unused byte or flag that isn't 0, or a yes/no byte above 1\n"
     '0:0      Move            bytes 00 00 00 00 01, refused with 11\n'),
    ('a00100\nc00c00000000\na00100\nc00300000100\nc00000000100\nc00c00000000\ne002\n', 'f00c0000000001000100',
     "refused by the checker with 12: a register that the prototype doesn't have\n"
     '1:1      Move            bytes 00 00 00 01 00, refused with 12\n'),
    ('a00100\nc00100000000\nc00c00000000\ne001\n', 'f00d0000000000000000',
     "refused by the checker with 13: a constant that the prototype doesn't have\n"
     '0:0      LoadConstant    bytes 01 00 00 00 00, refused with 13\n'),
    ('a00100\nc00300000100\ne001\n', 'f00e0000000000000000',
     "refused by the checker with 14: the next instruction may be one that isn't there\n"
     '0:0      LoadNil         bytes 03 00 00 01 00, refused with 14\n'),
    ('a00100\nc00c00000000\na00100\ne002\n', 'f00e0000000001000000', 'refused by the checker with 14: prototype 1 has no instructions\n'),
    ('a00100\nc01100000100\nc00c00000000\ne001\n', 'f00f0000000000000000',
     "refused by the checker with 15: a prototype that isn't in the image\n"
     '0:0      Closure         bytes 11 00 00 01 00, refused with 15\n'),
    ('e000\n', 'f00f0000000000000000', 'refused by the checker with 15: there is no prototype\n'),
    ('a00100\nc00c00000000\na00100\nd10000\nc01800000100\nc00c00000000\ne002\n', 'f0100000000001000000',
     "refused by the checker with 16: an upvalue or a descriptor that isn't there, or descriptors of prototype 0\n"
     '1:0      GetUpValue      bytes 18 00 00 01 00, refused with 16\n'),
)

VALUES = '''local function late(x)
  return x
end
return nil, true, false, -7, 2.5, 1e22, -0.0, 1e999, -1e999, 0/0, "it's \\"x\\"\\n", "", late
'''
VALUES_ANSWER = '''\
f0000000001000000f00
b000
b00101
b00100
b002fffffffffffffff9
b0034004000000000000
b0034480f0cf064dd592
b0038000000000000000
b0037ff0000000000000
b003fff0000000000000
b0037ff8000000000000
b00469742773202278220a
b004
b00501
'''
VALUES_SAID = '''\
nil
true
false
-7
2.5
1e+22
-0.0
inf
-inf
nan
"it's \\034x\\034\\010"
""
'''

# What is no answer for an image that divides by a constant, then returns a value and a function: the answer, and the message.
DIVIDES = 'a00200\nb0020000000000000007\nc02502000000\nc01100010000\nc00c00000200\ne001\n'
RETURNS = 'f0000000000300000200\n'
NOT_FOR = 'line 1: answer %d at place %d:%d, operand %d, with %s, is none that this image can have: it is for another one'
FIRST = 'line 1: an answer begins with a line of 20 digits, f0 the first two'
NO_VALUE = 'line 2: not a value: b0, its kind from 00 to 05, and as many bytes as the kind has'
NO_ANSWERS = (
    ('', FIRST),
    ('f00000000003000002\n', FIRST),
    ('f000000000030000020000\n', FIRST),
    ('f1000000000300000200\n', FIRST),
    ('b000\n', FIRST),
    ('F0000000000300000200\n', 'line 1: a line that is empty or not paired lowercase hexadecimal'),
    ('f000000000030000020\n', 'line 1: a line that is empty or not paired lowercase hexadecimal'),
    (RETURNS + '\n', 'line 2: a line that is empty or not paired lowercase hexadecimal'),
    (RETURNS + 'finished\n', 'line 2: a line that is empty or not paired lowercase hexadecimal'),
    (RETURNS + 'c000\n', NO_VALUE),
    (RETURNS + 'b0\n', NO_VALUE),
    (RETURNS + 'b00102\n', NO_VALUE),
    (RETURNS + 'b00207\n', NO_VALUE),
    (RETURNS + 'b005\n', NO_VALUE),
    (RETURNS + 'b0050000\n', NO_VALUE),
    (RETURNS + 'b006\n', NO_VALUE),
    (RETURNS + 'b000\nb00501\n', 'line 3: there is no prototype 1 in this image: the answer is for another one'),
    (RETURNS + 'b000\n', NOT_FOR % (0, 0, 2, 0, '1 value')),
    ('f0000000000300000202\nb000\nb00500\n', NOT_FOR % (0, 0, 2, 2, '2 values')),
    ('f0000000000200000100\n', NOT_FOR % (0, 0, 1, 0, 'no value')),
    ('f0000000000300000300\n', 'line 1: there is no place 0:3 in this image: the answer is for another one'),
    ('f0460000000001000000\n', 'line 1: there is no place 1:0 in this image: the answer is for another one'),
    ('f0460000000000000001\n', NOT_FOR % (70, 0, 0, 1, 'no value')),
    ('f0460000000000000000\nb000\n', NOT_FOR % (70, 0, 0, 0, '1 value')),
    ('f0220000000100000001\nb000\n', NOT_FOR % (34, 0, 0, 1, '1 value')),
    ('f0220000000100000000\n', NOT_FOR % (34, 0, 0, 0, 'no value')),
    ('f0220000000100000003\n', NOT_FOR % (34, 0, 0, 3, 'no value')),
    ('f0230000000100000001\n', NOT_FOR % (35, 0, 0, 1, 'no value')),
    ('f02d0000000100000001\n', NOT_FOR % (45, 0, 0, 1, 'no value')),
    ('f02e0000000100000002\n', NOT_FOR % (46, 0, 0, 2, 'no value')),
    ('f0320000000100000000\n', NOT_FOR % (50, 0, 0, 0, 'no value')),
    ('f03c0000000000000000\n', NOT_FOR % (60, 0, 0, 0, 'no value')),
    ('f0140000000100000000\n', NOT_FOR % (20, 0, 0, 0, 'no value')),
    ('f0140000000000000100\n', NOT_FOR % (20, 0, 1, 0, 'no value')),
    ('f0140000000000000001\n', NOT_FOR % (20, 0, 0, 1, 'no value')),
    ('f0140000000000000000\nb000\n', NOT_FOR % (20, 0, 0, 0, '1 value')),
    ('f0040000000000000500\n', 'line 1: answer 4 refuses an image (no e0 line at the end, or a byte after it), and this one is run: '
                                'the answer is for another one'),
)


def lua2image(*arguments, answer='', **environment):
    done = subprocess.run([sys.executable, COMMAND, *arguments], input=answer, stdout=subprocess.PIPE, stderr=subprocess.PIPE, universal_newlines=True,
                          env={**os.environ, **environment})
    return done.returncode, done.stdout, done.stderr


def in_shell(line, *words):
    """A command line of the shell, in which "$@" is lua2image and these words."""
    done = subprocess.run(['sh', '-c', line, 'sh', sys.executable, COMMAND, *words], stdout=subprocess.PIPE, stderr=subprocess.PIPE,
                          universal_newlines=True)
    return done.returncode, done.stdout, done.stderr


def session(image, *arguments):
    """What the machine answers for the image in a file."""
    with open(image, 'rb') as file:
        return subprocess.run([sys.executable, SESSION, *arguments], stdin=file, stdout=subprocess.PIPE, check=True, universal_newlines=True).stdout


def content(path):
    with open(path, 'rb') as file:
        return file.read()


def instructions(image):
    """The bytes of an image's instructions, by prototype and place."""
    found, q = {}, -1
    for line in image.splitlines():
        frame = bytes.fromhex(line)
        if frame[0] == 0xA0:
            q, p = q + 1, 0
        elif frame[0] == 0xC0:
            found['%d:%d' % (q, p)] = frame[1:]
            p += 1
    return found


def names_listed(listing):
    """Each listed instruction's name, by prototype and place."""
    return dict(re.findall(r'^(\d+:\d+) +(?:line \d+ +)?(\w+)', listing, re.M))


class Test(unittest.TestCase):
    def setUp(self):
        folder = tempfile.TemporaryDirectory()
        self.addCleanup(folder.cleanup)
        self.folder = folder.name

    def file(self, name, content=None):
        """The path of a file in a folder of its own, written where there is content."""
        path = os.path.join(self.folder, name)
        if content is not None:
            with open(path, 'w', encoding='latin-1') as file:
                file.write(content)
        return path


class Refusals(Test):
    def test_each_message_stands_at_its_line(self):
        for name, source, messages in REFUSALS:
            with self.subTest(name):
                with self.assertRaises(Refused) as refused:
                    translated(source.encode())
                self.assertEqual(refused.exception.args[0], messages)

    def test_what_just_fits_is_carried(self):
        for name, source in CARRIED:
            with self.subTest(name):
                made = translated(source.encode())
                self.assertEqual((made.image[:2], made.warnings), ('a0', []))

    def test_from_outside(self):
        path, image = self.file('rule.lua', 'local a = {}\nreturn #a'), self.file('rule.image')
        self.assertEqual(lua2image(path, '-o', image), (1, '', (
            path + ":1: a table is made here: rules can't use tables; keep each value in a local of its own\n"
            + path + ":2: '#' asks for a length: rules can't take lengths; give the length as a number\n")))
        self.assertFalse(os.path.exists(image))

    def test_a_source_that_is_not_utf_8(self):
        path = self.file('rule.lua', 'local x\nx = "caf\xe9\n')
        status, out, said = lua2image(path)
        self.assertEqual((status, out), (1, ''))
        self.assertIn(path + ':2: unfinished string near \'"caf', said)

    def test_a_file_that_is_no_image(self):
        path = self.file('bad.image', 'a00100\nb005\ne001\n')
        self.assertEqual(lua2image('--list', path), (1, '', (
            path + ':2: not an image: answer 2 at line 1 counted from 0, an unknown kind, or a wrong length, tag, order or field\n')))

    def test_a_compiled_file(self):
        rule = self.file('rule.lua', 'local x = 7\nreturn x')
        for options in ([], ['-s']):
            compiled = self.file('compiled.lua')
            subprocess.run(['luac5.3', *options, '-o', compiled, rule], check=True)
            self.assertEqual(lua2image(compiled), (1, '', compiled + ':1: a compiled file: give the source\n'))
        with open(compiled, 'rb') as file:
            chunk = file.read()
        for begins in (chunk[:1], chunk[:3], chunk[:20], b'\xef\xbb\xbf' + chunk, b'#!lua\n' + chunk, b'\xef\xbb\xbf#\n' + chunk):
            with self.assertRaisesRegex(Refused, 'a compiled file'):
                translated(begins)


class Usage(Test):
    def test_bad_usage_is_2(self):
        rule, image = self.file('rule.lua', 'return 7'), self.file('rule.image', 'e000\n')
        for arguments in ((), (rule, rule), ('--nonsense', rule), ('-o',), (image,), ('--list', '-o', rule, image), ('--explain',),
                          ('--explain', '--list', rule), ('--explain', '-o', image, rule), ('--explain', '-o', rule, image)):
            with self.subTest(arguments):
                status, out, said = lua2image(*arguments)
                self.assertEqual((status, out), (2, ''))
                self.assertIn('usage: lua2image', said)

    def test_a_missing_file_is_2(self):
        path = self.file('nothing.lua')
        status, out, said = lua2image(path)
        self.assertEqual((status, out), (2, ''))
        self.assertIn(path, said)

    def test_without_luac(self):
        rule = self.file('rule.lua', 'return 7')
        self.assertEqual(lua2image(rule, PATH=self.folder), (2, '', (
            "lua2image: luac5.3 is needed and isn't found on PATH: install Lua 5.3 (Debian, Ubuntu: apt-get install lua5.3)\n")))
        image = self.file('rule.image', 'e000\n')
        self.assertEqual(lua2image('--list', image, PATH=self.folder), (0, '', ''))
        status, out, said = lua2image('--explain', image, answer='f00f0000000000000000\n', PATH=self.folder)
        self.assertEqual((status, out[:7], said), (0, 'refused', ''))

    def test_where_the_image_goes(self):
        rule, image = self.file('rule.lua', 'return 7'), self.file('rule.image')
        status, out, said = lua2image(rule)
        self.assertEqual((status, said), (0, ''))
        self.assertEqual(out, 'a00200\nb0020000000000000007\nc00100000000\nc00c00000100\nc00c00000000\ne001\n')
        self.assertEqual(lua2image(rule, '-o', image), (0, '', ''))
        with open(image) as file:
            self.assertEqual(file.read(), out)
        listing = lua2image('--list', rule)
        self.assertEqual(lua2image('--list', rule, '-o', image), listing)


    def test_version_and_help(self):
        self.assertEqual(lua2image('--version'), (0, 'lua2image 0.3.0\n', ''))
        status, out, said = lua2image('--help')
        self.assertEqual((status, said), (0, ''))
        self.assertRegex(out, r'(?s)usage: lua2image .*Exit status:\n    0 .*\n    1 .*\n    2 ')


IMAGE_OF_7 = 'a00200\nb0020000000000000007\nc00100000000\nc00c00000100\nc00c00000000\ne001\n'


class Files(Test):
    def test_the_source_is_read_once(self):
        path = self.file('rule.lua', 'return 7')
        for line in ('"$@" - < RULE', '"$@" /dev/stdin < RULE', 'cat RULE | "$@" -', 'cat RULE | "$@" /dev/stdin'):
            with self.subTest(line):
                self.assertEqual(in_shell(line.replace('RULE', path)), (0, IMAGE_OF_7, ''))
        pipe = self.file('pipe')
        os.mkfifo(pipe)
        self.assertEqual(in_shell('cat %s > %s & "$@"' % (path, pipe), pipe), (0, IMAGE_OF_7, ''))

    def test_messages_for_standard_input(self):
        self.assertEqual(lua2image('-', answer='local x = 1\nlocal = 2'), (1, '', "-:2: <name> expected near '='\n"))

    def test_the_image_cannot_be_the_source(self):
        source = 'return 7'
        path, link, hard = self.file('rule.lua', source), self.file('link'), self.file('hard')
        os.symlink(path, link)
        os.link(path, hard)
        for target in (path, os.path.join(self.folder, '.', 'rule.lua'), link, hard):
            with self.subTest(target):
                self.assertEqual(lua2image(path, '-o', target), (2, '', 'lua2image: %s is FILE itself: what is written would take its place\n' % target))
        status, _, said = in_shell('"$@" < ' + path, '-', '-o', path)
        self.assertEqual((status, content(path).decode()), (2, source), said)
        status, _, said = in_shell('"$@" >> ' + path, path)
        self.assertEqual((status, content(path).decode()), (2, source), said)

    def test_standard_output_by_name(self):
        path, out = self.file('rule.lua', 'return 7'), self.file('out')
        self.assertEqual(lua2image(path, '-o', '-'), (0, IMAGE_OF_7, ''))
        self.assertEqual(lua2image(path, '-o', '/dev/stdout'), (0, IMAGE_OF_7, ''))
        self.assertEqual(in_shell('{ echo before; "$@"; } > ' + out, path, '-o', '/dev/stdout'), (0, '', ''))
        self.assertEqual(content(out).decode(), 'before\n' + IMAGE_OF_7)
        status, out, said = lua2image('--list', path, '-o', '-')
        self.assertEqual((status, out), (2, ''))
        self.assertIn('usage: lua2image', said)

    def test_an_image_takes_the_place_of_another(self):
        path, image, link = self.file('rule.lua', 'return 7'), self.file('rule.image', 'old'), self.file('link')
        os.chmod(image, 0o640)
        os.symlink(image, link)
        self.assertEqual(lua2image(path, '-o', link), (0, '', ''))
        self.assertEqual((content(image).decode(), stat.S_IMODE(os.stat(image).st_mode), os.path.islink(link)), (IMAGE_OF_7, 0o640, True))
        self.assertEqual(sorted(os.listdir(self.folder)), ['link', 'rule.image', 'rule.lua'])

    def test_what_cannot_be_written(self):
        path, image = self.file('rule.lua', 'local x\n' + 'x = 1\n' * 60), self.file('rule.image', 'old')
        # luac's chunk has fewer bytes than the image
        size = len(translated(content(path)).image)
        done = subprocess.run([sys.executable, COMMAND, path, '-o', image], stderr=subprocess.PIPE, universal_newlines=True,
                              preexec_fn=lambda: resource.setrlimit(resource.RLIMIT_FSIZE, (size - 1, size - 1)))
        self.assertEqual((done.returncode, done.stderr), (2, "lua2image: %s can't be written: File too large\n" % image))
        self.assertEqual((content(image), sorted(os.listdir(self.folder))), (b'old', ['rule.image', 'rule.lua']))
        no_room = "can't be written: No space left on device\n"
        for words, name in (((path, '-o', '/dev/full'), '/dev/full'), ((path,), 'standard output'), (('--list', path), 'standard output'),
                            (('--version',), 'standard output')):
            with self.subTest(words):
                self.assertEqual(in_shell('"$@" > /dev/full', *words), (2, '', 'lua2image: %s %s' % (name, no_room)))
        self.assertEqual(in_shell('"$@" >&-', path), (2, '', 'lua2image: standard output is closed\n'))
        self.assertEqual(in_shell('"$@" >&-', path, '-o', image), (0, '', ''))
        missing = os.path.join(self.folder, 'nowhere', 'rule.image')
        self.assertEqual(lua2image(path, '-o', missing), (2, '', "lua2image: %s can't be written: No such file or directory\n" % missing))

    def test_a_broken_pipe(self):
        read, write = os.pipe()
        os.close(read)
        done = subprocess.run([sys.executable, COMMAND, self.file('rule.lua', 'return 7')], stdout=write, stderr=subprocess.PIPE, universal_newlines=True)
        os.close(write)
        self.assertEqual((done.returncode, done.stderr), (2, "lua2image: standard output can't be written: Broken pipe\n"))

    def test_closed_streams(self):
        path = self.file('rule.lua', 'return #x')
        self.assertEqual(in_shell('"$@" 2>&-', path), (1, '', ''))
        self.assertEqual(in_shell('"$@" 2> /dev/full', path), (1, '', ''))
        self.assertEqual(in_shell('"$@" <&-', '-'), (2, '', 'lua2image: standard input is closed\n'))
        self.assertEqual(in_shell('"$@" <&-', '--explain', path), (2, '', 'lua2image: standard input is closed\n'))

    def test_an_image_is_known_by_its_content(self):
        as_source, as_image = self.file('image.lua', IMAGE_OF_7), self.file('source.image', 'return 7')
        listing = lua2image('--list', self.file('seven.image', IMAGE_OF_7))
        self.assertEqual((listing[0], listing[1][:12]), (0, 'prototype 0:'))
        self.assertEqual(lua2image('--list', as_source), listing)
        self.assertEqual(lua2image('--list', '-', answer=IMAGE_OF_7), listing)
        self.assertEqual(lua2image('--explain', as_source, answer='f0000000000200000100\nb0020000000000000007\n')[:2], (
            0, 'finished after 2 instructions, at place 0:1: 1 value\n7\n'))
        self.assertEqual(lua2image(as_image), (0, IMAGE_OF_7, ''))
        status, out, said = lua2image(as_source)
        self.assertEqual((status, out), (2, ''))
        self.assertIn(as_source + ' is an image already; --list shows what is in it\n', said)
        damaged = self.file('damaged', 'A00200\r\n')
        self.assertIn(damaged + ':1: not an image', lua2image('--list', damaged)[2])

    def test_an_answer_and_a_file_at_once(self):
        message = 'lua2image: --explain reads the answer from standard input: FILE has to be another file\n'
        for name in ('-', '/dev/stdin'):
            self.assertEqual(lua2image('--explain', name, answer=RETURNS), (2, '', message))
        self.assertEqual(in_shell('"$@" < ' + self.file('answer', RETURNS), '--explain', '/dev/stdin'), (2, '', message))


class StrangeLuacs(Test):
    def test_a_message_for_each(self):
        rule, luac = self.file('rule.lua', 'return 7'), self.file('luac5.3')
        for script, message in STRANGE_LUACS:
            with self.subTest(script):
                self.file('luac5.3', '#!/bin/sh\n%s\n' % script)
                os.chmod(luac, 0o755)
                self.assertEqual(lua2image(rule, PATH=self.folder + os.pathsep + os.environ['PATH']), (2, '', 'lua2image: %s\n' % message))

    def test_damaged_chunks(self):
        """Every truncation and much other damage of a chunk end in a message, or in an image that the machine accepts."""
        chunk = luac_image.chunk_of(HELPERS.encode())
        dice = Dice(7)
        damaged = [chunk[:n] for n in range(len(chunk))] + [chunk + b'\0']
        for _ in range(1500):
            bytes_of = bytearray(chunk)
            for _ in range(1 + dice.below(3)):
                bytes_of[34 + dice.below(len(chunk) - 34)] = dice.pick([0, 1, 127, 128, 255, dice.below(256)])
            damaged.append(bytes(bytes_of))
        ended = collections.Counter()
        for data in damaged:
            with mock.patch.object(luac_image, 'chunk_of', return_value=data):
                try:
                    ended[type(translated(b''))] += 1
                except (Refused, Unusable) as refusal:
                    ended[type(refusal)] += 1
        self.assertGreaterEqual(ended[Unusable], len(chunk) + 1)
        self.assertEqual(len(ended), 3, ended)


class Inputs(Test):
    def test_they_become_parameters(self):
        rule, image = self.file('rule.lua', TOLD), self.file('rule.image')
        status, out, said = lua2image('--list', rule, '-o', image)
        self.assertEqual((status, said), (0, ''))
        self.assertIn('prototype 0, the main program: registers 7, parameters 4\n0:0     line 2     Sub             r4 = r0 - r1\n', out)
        for arguments, values in TOLD_ANSWERS:
            with self.subTest(arguments):
                answer = session(image, *arguments)
                self.assertEqual(answer.partition('\n')[2], values)
                self.assertEqual(lua2image('--explain', rule, answer=answer)[0], 0)

    def test_any_first_use_of_so_many(self):
        for source, parameters in (('return (...)', 1), ('local a, b = ...', 2), ('do local a, b, c = ... end', 3), ('for i = ..., 7 do end', 1),
                                   ('if (...) then return 1 end', 1), ('local a = (...)\nlocal function f() return 1 end', 1)):
            with self.subTest(source):
                made = translated(source.encode())
                self.assertEqual(made.prototypes[0].parameters, parameters)

    def test_what_is_no_argument(self):
        image = self.file('rule.image', IMAGE_OF_7)
        for argument in ('', 'x', '1e23', '0x', '1 2', 'True', 'inf', '"7"'):
            with open(image) as file:
                done = subprocess.run([sys.executable, SESSION, argument], stdin=file, stdout=subprocess.PIPE, stderr=subprocess.PIPE)
            self.assertEqual((done.returncode, done.stdout), (2, b''), argument)

    def test_arguments_that_are_refused(self):
        image = self.file('rule.image', IMAGE_OF_7)
        answer = session(image, *'123456789')
        self.assertEqual(answer, 'f0140000000000000000\n')
        self.assertEqual(lua2image('--explain', image, answer=answer), (0, (
            "the arguments are refused: more than 8, or one that isn't nil, a boolean, an integer or a number\n"), ''))


class Helpers(Test):
    def test_functions_and_constants_around(self):
        rule, image = self.file('rule.lua', HELPERS), self.file('rule.image')
        status, out, said = lua2image('--list', rule, '-o', image)
        self.assertEqual((status, said), (0, ''))
        for line in HELPERS_LISTED:
            self.assertIn(line, out)
        status, out, said = lua2image('--explain', rule, answer=session(image))
        self.assertEqual((status, out.partition('\n')[2], said), (0, HELPERS_SAID, ''))

    def test_a_constant_that_is_there_is_not_added(self):
        made = translated(b'local year, day = 365, 365\nlocal function f(x) return x - 365 - year - day end')
        self.assertEqual(len(made.prototypes[1].constants), 1)

    def test_a_function_around_is_made_once(self):
        """It is an upvalue, however often it is called: entries are few."""
        rule = 'local function f(x) return x end\nlocal function g(x) return (f(x)) end\nlocal s = 0\nfor i = 1, 100 do s = s + g(i) end\nreturn s'
        self.assertEqual(machine.session(translated(rule.encode()).image.encode()).splitlines()[1:], ['b00200000000000013ba'])

    def test_what_nothing_uses_is_dropped(self):
        """A constant takes no descriptor, here nor in the functions through which it comes; the others are numbered anew."""
        made = translated(b'local n = ...\nlocal year = 365\nlocal function f()\n  local function g() n = n + year return n end\n  return (g())\nend\nreturn (f())')
        self.assertEqual([[tuple(one) for one in prototype.descriptors] for prototype in made.prototypes], [[], [(0, 0)], [(1, 0)]])

    def test_in_code_that_is_never_reached(self):
        made = translated(b'local year = 365\nif false then\n  local function f() return year end\nend\ndo return end\nlocal function g() return year end')
        self.assertEqual([len(prototype.constants) for prototype in made.prototypes], [1, 1, 1])
        translated(b'local year = 365\nif false then\n  local days = year\n  local function f() return days end\nend')


VALUES_TOLD = {'nil': machine.NOTHING, 'true': boolean(True), 'false': boolean(False), '1e999': number(float('inf'))}


def shown(m, value):
    """A value as run.lua writes it: NaNs are one."""
    kind, word = value
    return m.shown(number(double(word)) if kind == NUMBER else value)


class AgainstLua(Test):
    COUNT = 220

    def answered(self, image, arguments):
        """What the machine answers, in run.lua's words; None where a limit is passed that Lua hasn't."""
        m = machine.Machine()
        values = [VALUES_TOLD.get(text) or figure(text.encode()) for text in arguments]
        self.assertEqual((m.read(image)[0], m.start(values)[0]), (0, 0))
        answer = m.run(20000)[0]
        if answer in (51, 52, 53, 54, 70):
            return None
        return ' '.join(['ok', *(shown(m, value) for value in m.returned())]) if answer == 0 else 'error'

    def compared(self, rules):
        """How many of these answer what lua5.3 does, [(source, arguments, image), ..]; the others pass a limit."""
        for at, (source, arguments, _) in enumerate(rules, 1):
            self.file('%d.lua' % at, 'return (function(...) %s\nend)(%s)\n' % (source, ', '.join(arguments)))
        lua = subprocess.run(['lua5.3', RUN_LUA, self.folder, str(len(rules))], stdout=subprocess.PIPE, check=True, universal_newlines=True).stdout
        agreed = 0
        for (source, arguments, image), said in zip(rules, lua.splitlines()):
            has = self.answered(image, arguments)
            if has is not None:
                self.assertEqual(has, said if said.startswith('ok') else 'error', '%s%s' % (source, arguments))
                agreed += 1
        return agreed

    def test_rules_made_by_chance(self):
        """All are carried, but for those with a function of too many variables from outside."""
        carried = []
        for seed in range(self.COUNT):
            source, arguments = rule(seed)
            try:
                carried.append((source, arguments, translated(source.encode()).image))
            except Refused as refusal:
                self.assertTrue(all('variables of outer functions in one function' in message for _, message in refusal.args[0]), '%s\n%s' % (source, refusal))
        self.assertGreater(len(carried), self.COUNT * 3 // 4)
        self.assertGreater(self.compared(carried), self.COUNT // 2)

    def test_what_functions_hold(self):
        rules = [(source, told.split(), translated(source.encode()).image) for _, source, told in HOLDING]
        self.assertEqual(self.compared(rules), len(rules))


class Warnings(Test):
    def test_steps_of_zero(self):
        for source, lines in STEPS:
            with self.subTest(source):
                self.assertEqual(translated(source.encode()).warnings, [(line, NO_STEP) for line in lines])

    def test_from_outside(self):
        path = self.file('rule.lua', 'local step = 0\nfor i = 2, 1, step do end\nreturn 7')
        status, out, said = lua2image(path)
        self.assertEqual((status, out[:2], said), (0, 'a0', '%s:2: %s\n' % (path, NO_STEP)))


class Listing(Test):
    def test_in_words(self):
        status, out, said = lua2image('--list', self.file('rule.lua', SOURCE))
        self.assertEqual((status, said), (0, ''))
        self.assertEqual(out, LISTING)

    def test_an_example(self):
        status, out, _ = lua2image('--list', os.path.join(EXAMPLES, 'seven-years.lua'))
        self.assertEqual(status, 0)
        self.assertIn('0:32    line 28    Return          r9..r11\n', out)

    def test_names_agree_with_the_image(self):
        for name in sorted(os.listdir(EXAMPLES)):
            if name.endswith('.image'):
                with self.subTest(name):
                    path = os.path.join(EXAMPLES, name)
                    with open(path) as file:
                        wanted = {place: NAMES[five[0]] for place, five in instructions(file.read()).items()}
                    of_image, of_source = lua2image('--list', path)[1], lua2image('--list', path[:-len('.image')] + '.lua')[1]
                    self.assertEqual(names_listed(of_image), wanted)
                    self.assertEqual(names_listed(of_source), wanted)

    def test_every_operation_has_words(self):
        code = ''.join('c0%02x00%s0000\n' % (number, 'ff' if name == 'Jump' else '00') for number, name in NAMES.items())
        image = self.file('all.image', 'a00100\nc00c00000000\na00400\nd10100\nb000\n' + code + 'c00e00030000\nc00c00000000\ne002\n')
        status, out, said = lua2image('--list', image)
        self.assertEqual((status, said), (0, ''))
        self.assertEqual(list(names_listed(out).values()), ['Return', *NAMES.values(), 'Jump', 'Return'])
        self.assertNotIn('refused', out)
        self.assertIn('Jump            close from r3 on, go to 1:%d\n' % (len(NAMES) + 1), out)

    def test_an_instruction_that_is_refused(self):
        image = self.file('bad.image', 'a00100\nc06300010203\nc00000000100\nc00c00000000\ne001\n')
        self.assertEqual(lua2image('--list', image), (0, (
            'prototype 0: registers 1, parameters 0\n'
            '0:0      operation 99    bytes 63 00 01 02 03, refused with 10\n'
            '0:1      Move            bytes 00 00 00 01 00, refused with 12\n'
            '0:2      Return          no value\n'), ''))


class Answers(Test):
    def answers(self, source, listing, answer):
        rule, image = self.file('rule.lua', source), self.file('rule.image')
        self.assertEqual(lua2image('--list', rule, '-o', image), (0, listing, ''))
        self.assertEqual(session(image), answer)

    def test_years_as_text(self):
        self.answers(YEARS, YEARS_LISTING, YEARS_ANSWER)

    def test_two_functions_are_equal_where_they_are_one(self):
        """Lua 5.3 may take two that can't be told apart for one; its manual leaves that open (docs/DIFFERENCES.md)."""
        rule = 'local function maker()\n  return function() return 5 end\nend\nlocal f = maker()\nlocal g = f\nreturn f == (maker()), f == g'
        self.assertEqual(machine.session(translated(rule.encode()).image.encode()).splitlines()[1:], ['b00100', 'b00101'])

    def test_a_period_without_end(self):
        self.answers(PERIODS, PERIODS_LISTING, PERIODS_ANSWER)


class Explaining(Test):
    def explained(self, path, answer):
        status, out, said = lua2image('--explain', path, answer=answer)
        self.assertEqual((status, said), (0, ''))
        return out

    def ends(self, source, answer):
        """What is said of a rule that answers this, from its source; its image says the same of the place, without the names of variables."""
        made = translated(source.encode())
        image, written = made.image.encode(), answer.encode() + b'\n'
        self.assertEqual(machine.session(image), written.decode())
        said = explain.explained(written, image, made.functions)
        place = 'place %d:%d' % (int(answer[12:14], 16), int(answer[14:18], 16))
        self.assertEqual(explain.explained(written, image), re.sub(r'^line \d+', place, re.sub('(?m), `[a-z]+`(,|$)', '', said)))
        return said

    def test_errors(self):
        for source, answer, words in ERRORS:
            with self.subTest(source):
                self.assertEqual(self.ends(source, answer), words + '\n')

    def test_operators(self):
        for sign, number, wrong in OPERATORS:
            with self.subTest(sign):
                first = 'f0%02x00000003000002' % number
                self.assertEqual(self.ends('local a, b = nil, 1\nreturn a %s b' % sign, first + '01'), 'line 2: the left side of `%s`, `a`, %s\n' % (sign, wrong))
                self.assertEqual(self.ends('local a, b = nil, 1\nreturn b %s a' % sign, first + '02'), 'line 2: the right side of `%s`, `a`, %s\n' % (sign, wrong))

    def test_comparisons(self):
        for sign, turned, number in COMPARISONS:
            first = 'f0%02x00000003000002' % number
            left = "line 2: the left side of `%s` (the right side of `%s`), `a`, can't be compared with the other side\n" % (sign, turned)
            right = "line 2: the right side of `%s` (the left side of `%s`), `a`, can't be compared with the other side\n" % (sign, turned)
            with self.subTest(sign):
                self.assertEqual(self.ends('local a, b = nil, 1\nreturn a %s b' % sign, first + '01'), left)
                self.assertEqual(self.ends('local a, b = nil, 1\nreturn b %s a' % sign, first + '02'), right)
            with self.subTest(turned):
                self.assertEqual(self.ends('local a, b = nil, 1\nreturn b %s a' % turned, first + '01'), left)
                self.assertEqual(self.ends('local a, b = nil, 1\nreturn a %s b' % turned, first + '02'), right)

    def test_names_that_come_from_elsewhere(self):
        """A constant around a function, the variable that is called, a shadowed name, a loop's variable, and no name where two values may stand there."""
        for source, answer, words in (
                ('local s = "x"\nlocal function f(n)\n  return n + s\nend\nreturn (f(1))', 'f01e0000000701000102', 'line 3: the right side of `+`, `s`,'),
                ('local a = 1\ndo\n  local a = "x"\n  return -a\nend', 'f0240000000300000201', 'line 4: the operand of `-`, `a`,'),
                ('for i = 1, 2 do\n  return i << 0.5\nend', 'f0290000000600000402', 'line 2: the right side of `<<`, 0.5,'),
                ('for i = 1.5, 2 do\n  return i << 1\nend', 'f0290000000600000401', 'line 2: the left side of `<<`, `i`,'),
                ('local a, b\nreturn (a or b) + 1', 'f01e0000000400000401', 'line 2: the left side of `+` ')):
            with self.subTest(source):
                self.assertEqual(self.ends(source, answer)[:len(words)], words)

    def test_every_lua_error_is_among_them(self):
        of_two = {number for _, number, _ in OPERATORS} | {number for _, _, number in COMPARISONS}
        self.assertEqual({int(answer[2:4], 16) for _, answer, _ in ERRORS} | of_two, LUA_ERRORS)

    def test_all_controls_of_a_loop(self):
        loop = self.file('loop.image', 'a00400\nc01200000000\nc01300000000\nc00c00000000\ne001\n')
        for answer, words in (('f01e0000000200000101', 'index'), ('f01e0000000200000102', 'limit'), ('f01e0000000200000103', 'step')):
            self.assertEqual(self.explained(loop, answer), "place 0:1: the %s of the `for` isn't a number\n" % words)
        # its beginning doesn't look at the limit
        status, out, said = lua2image('--explain', loop, answer='f01f0000000100000002')
        self.assertEqual((status, out, said), (1, '', 'the answer, ' + NOT_FOR % (31, 0, 0, 2, 'no value') + '\n'))

    def test_values(self):
        rule, image = self.file('rule.lua', VALUES), self.file('rule.image')
        self.assertEqual(lua2image(rule, '-o', image), (0, '', ''))
        self.assertEqual(session(image), VALUES_ANSWER)
        self.assertEqual(self.explained(rule, VALUES_ANSWER), 'finished after 16 instructions, at line 4: 13 values\n' + VALUES_SAID + 'function 1 (line 1)\n')
        self.assertEqual(self.explained(image, VALUES_ANSWER), 'finished after 16 instructions, at place 0:15: 13 values\n' + VALUES_SAID + 'function 1\n')

    def test_strings(self):
        rule = self.file('rule.lua', 'return 1')
        for text, said in (('gelöscht'.encode(), '"gelöscht"'), (b'a"\\\n', '"a\\034\\092\\010"'), (b'\xff\x00x', '"\\255\\000x"'), (b'\xc2\xad', '"\\194\\173"')):
            answer = 'f0000000000200000100\nb004%s\n' % text.hex()
            self.assertEqual(self.explained(rule, answer), 'finished after 2 instructions, at line 1: 1 value\n%s\n' % said)

    def test_few_values(self):
        rule = self.file('rule.lua', 'return')
        self.assertEqual(self.explained(rule, 'f0000000000100000000\n'), 'finished after 1 instruction, at line 1: no value\n')
        rule = self.file('rule.lua', 'return 7')
        self.assertEqual(self.explained(rule, 'f0000000000200000100\nb0020000000000000007\n'), 'finished after 2 instructions, at line 1: 1 value\n7\n')

    def test_the_line_ends_of_another_system(self):
        rule = self.file('rule.lua', 'return 7')
        self.assertEqual(self.explained(rule, 'f0000000000200000100\r\nb0020000000000000007'), 'finished after 2 instructions, at line 1: 1 value\n7\n')

    def test_a_budget_that_is_used_up(self):
        rule = self.file('rule.lua', 'local n = 0\nwhile true do\n  n = n + 1\nend\n')
        image = self.file('rule.image')
        self.assertEqual(lua2image(rule, '-o', image), (0, '', ''))
        # the first instruction, then two for each turn: after an even number the jump back is next
        answer = 'f046000f424000000200\n'
        self.assertEqual(self.explained(rule, answer), 'the budget is used up after 1000000 instructions; next is line 3\n')
        self.assertEqual(self.explained(image, answer), 'the budget is used up after 1000000 instructions; next is place 0:2\n')

    def test_images_that_are_not_run(self):
        for image, answer, words in NOT_RUN:
            with self.subTest(image):
                path = self.file('bad.image', image)
                self.assertEqual(session(path), answer + '\n')
                self.assertEqual(self.explained(path, answer + '\n'), words)
                number = int(answer[2:4], 16)
                self.assertEqual(lua2image('--explain', path, answer=RETURNS), (
                    1, '', 'the answer, line 1: this image is refused with %d: the answer is for another one\n' % number))

    def test_what_is_no_answer(self):
        path = self.file('divides.image', DIVIDES)
        self.assertEqual(self.explained(path, RETURNS + 'b000\nb00500\n'), 'finished after 3 instructions, at place 0:2: 2 values\nnil\nfunction 0\n')
        for answer, message in NO_ANSWERS:
            with self.subTest(answer):
                self.assertEqual(lua2image('--explain', path, answer=answer), (1, '', 'the answer, %s\n' % message))

    def test_a_rule_that_is_refused(self):
        rule = self.file('rule.lua', 'return #"x"')
        status, out, said = lua2image('--explain', rule, answer=RETURNS)
        self.assertEqual((status, out), (1, ''))
        self.assertIn(rule + ':1: ', said)


class WalkThrough(Test):
    def test_the_readme_shows_what_is_so(self):
        with open(os.path.join(HERE, 'README.md')) as file:
            readme = file.read()
        source, = re.findall(r'```lua\n(.*?)```', readme, re.S)
        shown = re.findall(r'^    \$ (.*)\n((?:    [^$].*\n)*)', readme, re.M)
        expected = [(command, re.sub('^    ', '', output, flags=re.M)) for command, output in shown]
        rule, image = self.file('rule.lua', source), self.file('rule.image')
        has = [('tools/lua2image/lua2image --list rule.lua', lua2image('--list', rule, '-o', image)[1])]
        for arguments in ('20407 17531 false', '20407 nil false'):
            answer = session(image, *arguments.split())
            has += [('./deletion rule.image %s > answer' % arguments, ''), ('cat answer', answer),
                    ('tools/lua2image/lua2image --explain rule.lua < answer', lua2image('--explain', rule, answer=answer)[1])]
        self.assertEqual(expected, has)


if __name__ == '__main__':
    unittest.main()
