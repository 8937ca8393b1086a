-- What Lua 5.3 or 5.4 answers: what it takes a string for, and every operator of the machine on every pair of operands.
--
--   answers.lua figures       of each line of standard input, a string in hexadecimal: what arithmetic takes it for, and tonumber
--   answers.lua operators     on the operands of standard input, `v` and `s` lines as in crates/strings: an `r` line for each row of results
--   answers.lua blocks        on blocks of operands, each behind a line `w` or `l`: an `r` line for each operator, whose left operand, behind `l`
--                             whose right one, is the block's first and whose other one is each of the block
--
-- Arithmetic is s * 1, which keeps the kind of s and the sign of a zero. An operator's error is whom Lua's message names (../vectors/named.lua), so its
-- operands are parameters.
assert(os.setlocale("C", "all"))
local named = dofile((arg[0]:match("^(.*)/") or ".") .. "/../vectors/named.lua")

local function bytes_of(hex)
  return (hex:gsub("..", function(pair) return string.char(tonumber(pair, 16)) end))
end

local function shown(r)
  if r == nil then return "e" end
  if math.type(r) == "integer" then return string.format("i%016x", r) end
  if type(r) == "boolean" then return r and "t" or "f" end
  if r ~= r then return "n7ff8000000000000" end
  return string.format("n%016x", (string.unpack(">I8", string.pack(">d", r))))
end

local function figures()
  for line in io.lines() do
    local s = bytes_of(line)
    local ok, r = pcall(function() return s * 1 end)
    io.write(ok and shown(r) or "e", " ", shown(tonumber(s)), "\n")
  end
end

local unary = { function(a) return -a end, function(a) return ~a end }
local binary = {
  function(a, b) return a + b end, function(a, b) return a - b end, function(a, b) return a * b end, function(a, b) return a / b end,
  function(a, b) return a // b end, function(a, b) return a % b end, function(a, b) return a & b end, function(a, b) return a | b end,
  function(a, b) return a ~ b end, function(a, b) return a << b end, function(a, b) return a >> b end,
  function(a, b) return a == b end, function(a, b) return a < b end, function(a, b) return a <= b end,
}

local function value_of(line)
  local kind, rest = line:sub(1, 2), line:sub(4)
  if line:sub(1, 1) == "s" then return bytes_of(line:sub(2))
  elseif kind == "v1" then return rest:sub(-1) == "1"
  elseif kind == "v2" then return (string.unpack(">i8", bytes_of(rest)))
  elseif kind == "v3" then return (string.unpack(">d", bytes_of(rest)))
  elseif kind == "v5" then return value_of end
end

-- What an operator makes of its operands.
local function result(op, a, b)
  local ok, r = pcall(op, a, b)
  return ok and shown(r) or named(r)
end

local function operators()
  local values, n = {}, 0
  for line in io.lines() do
    n = n + 1
    values[n] = value_of(line)
  end
  for _, op in ipairs(unary) do
    io.write("r")
    for i = 1, n do io.write(result(op, values[i])) end
    io.write("\n")
  end
  for _, op in ipairs(binary) do
    for i = 1, n do
      io.write("r")
      for j = 1, n do io.write(result(op, values[i], values[j])) end
      io.write("\n")
    end
  end
end

local function block(kind, values)
  for _, op in ipairs(unary) do
    io.write("r")
    for _, v in ipairs(values) do io.write(result(op, v)) end
    io.write("\n")
  end
  for _, op in ipairs(binary) do
    io.write("r")
    for _, v in ipairs(values) do
      io.write(kind == "w" and result(op, values[1], v) or result(op, v, values[1]))
    end
    io.write("\n")
  end
end

local function blocks()
  local kind, values
  for line in io.lines() do
    if line == "w" or line == "l" then
      if kind then block(kind, values) end
      kind, values = line, {}
    else
      values[#values + 1] = value_of(line)
    end
  end
  block(kind, values)
end

({ figures = figures, operators = operators, blocks = blocks })[arg[1]]()
