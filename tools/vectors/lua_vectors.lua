-- What Lua 5.3 answers: every operator of the machine on every pair of values.txt, past-the-end of loops, the order of
-- strings, and `%` on every pair of remainders.txt. Under Lua 5.4: `%` alone, on both. README.md has the format.
--
-- Left out, by one rule, and under Lua 5.3 alone: `%` where remainder and divisor have strictly opposite signs and their
-- product rounds to zero. Lua 5.3 adds the divisor where that product is below zero; document 02 goes by the signs, and so
-- does Lua 5.4. Strings are compared and never calculated with: Lua converts them to numbers, and the operators that the
-- vectors go through take none.
--
-- A loop's test is not Lua's own `for` (document 01 keeps a mixed loop's limit as it is, and goes on at NaN): it is
-- document 01's sentence, decided by Lua's `<`.
--
-- An error is whom Lua's message names (named.lua). So an operator's operands are parameters: of a constant Lua tells no name.

local here = arg[0]:match("^(.*)/") or "."
local named = dofile(here .. "/named.lua")
local source = assert(({ ["Lua 5.3"] = "lua", ["Lua 5.4"] = "lua5.4" })[_VERSION])
assert(os.setlocale("C", "all"))

local function lines_of(name)
  local file, found = assert(io.open(here .. "/" .. name)), {}
  for line in file:lines() do
    if line:sub(1, 1) ~= "#" then found[#found + 1] = line end
  end
  file:close()
  return found
end

local function bytes_of(hex)
  return (hex:gsub("..", function(pair) return string.char(tonumber(pair, 16)) end))
end

-- Operation and error number, both hexadecimal and of document 01; the name; the operator.
local modulo = { "26 23", "modulo", function(a, b) return a % b end }
local operators = {
  { "21 1e", "add", function(a, b) return a + b end },
  { "22 1f", "subtract", function(a, b) return a - b end },
  { "23 20", "multiply", function(a, b) return a * b end },
  { "24 21", "float_divide", function(a, b) return a / b end },
  { "25 22", "floor_divide", function(a, b) return a // b end },
  modulo,
  { "28 25", "bitwise_and", function(a, b) return a & b end },
  { "29 26", "bitwise_or", function(a, b) return a | b end },
  { "2a 27", "bitwise_xor", function(a, b) return a ~ b end },
  { "2b 29", "shift_left", function(a, b) return a << b end },
  { "2c 2a", "shift_right", function(a, b) return a >> b end },
}
local comparisons = {
  { "1b 00", "is_equal", function(a, b) return a == b end },
  { "1c 2b", "less_than", function(a, b) return a < b end },
  { "1d 2c", "less_equal", function(a, b) return a <= b end },
}
local unary = {
  { "1f 24", "negate", function(a) return -a end },
  { "20 28", "bitwise_not", function(a) return ~a end },
}

local function past_end(index, limit, step)
  if step < 0 then return index < limit else return limit < index end
end

local function left_out(op, a, b)
  if op ~= modulo or source ~= "lua" or not (math.type(a) and math.type(b)) then return false end
  local divisor = b + 0.0
  local r = math.fmod(a + 0.0, divisor)
  return (r < 0 and divisor > 0 or r > 0 and divisor < 0) and r * divisor == 0
end

local function shown(ok, r)
  if not ok then return named(r) end
  if math.type(r) == "integer" then return string.format("i%016x", r) end
  if type(r) == "boolean" then return r and "t" or "f" end
  if r ~= r then return "n7ff8000000000000" end
  return string.format("n%016x", (string.unpack(">I8", string.pack(">d", r))))
end

local function write_head(numbers, count, name)
  io.write(string.format("o%s %06x %s %s\n", numbers, count, source, name))
end

local function write_pairs(list, values, prefix)
  for _, op in ipairs(list) do
    write_head(op[1], #values * #values, prefix .. op[2])
    for i = 1, #values do
      for j = 1, #values do
        local a, b = values[i].is, values[j].is
        io.write(left_out(op, a, b) and "-" or shown(pcall(op[3], a, b)))
      end
      io.write("\n")
    end
  end
end

-- The values of a file, and those of them that have a mark.
local function values_of(name)
  local values, marked = {}, {}
  for _, line in ipairs(lines_of(name)) do
    local kind, word, mark = line:match("^(%d) (%x+) (.)")
    local is
    if kind == "1" then is = word:sub(-1) == "1" end
    if kind == "2" then is = string.unpack(">i8", bytes_of(word)) end
    if kind == "3" then is = string.unpack(">d", bytes_of(word)) end
    local value = { is = is, line = "v" .. kind .. " " .. word .. "\n" }
    values[#values + 1] = value
    if mark == "*" then marked[#marked + 1] = value end
  end
  return values, marked
end

local values, controls = values_of("values.txt")
local remainders = values_of("remainders.txt")

local strings = {}
for _, line in ipairs(lines_of("strings.txt")) do
  local length, hex = line:match("^(%x%x)(%x*) ")
  assert(#hex == 2 * tonumber(length, 16))
  strings[#strings + 1] = { is = bytes_of(hex), line = "s" .. length .. " " .. hex .. "\n" }
end

local function write_values(list)
  io.write(string.format("w%02x\n", #list))
  for _, value in ipairs(list) do io.write(value.line) end
end

local function write_unary()
  for _, op in ipairs(unary) do
    write_head(op[1], #values, op[2])
    for _, value in ipairs(values) do io.write(shown(pcall(op[3], value.is))) end
    io.write("\n")
  end
end

local function write_loops()
  write_values(controls)
  write_head("13 00", #controls * #controls * #controls, "past_end")
  for _, index in ipairs(controls) do
    for _, limit in ipairs(controls) do
      for _, step in ipairs(controls) do io.write(shown(pcall(past_end, index.is, limit.is, step.is))) end
      io.write("\n")
    end
  end
end

write_values(values)
if source == "lua" then
  write_unary()
  write_pairs(operators, values, "")
  write_pairs(comparisons, values, "")
  write_loops()
  write_values(strings)
  write_pairs(comparisons, strings, "strings ")
else
  write_pairs({ modulo }, values, "")
end
write_values(remainders)
write_pairs({ modulo }, remainders, "hard numbers ")
