-- Runs Lua programs and says what each returned or raised, a line each.
--
--   lua5.3 run.lua FOLDER COUNT        runs FOLDER/1.lua to FOLDER/COUNT.lua
--
--   ok b0.. b0..       the returned values, as lines of an image: tag and payload in hexadecimal; NaNs are one
--   error 12 text      the source line of the error and Lua's message

assert(_VERSION == "Lua 5.3" and os.setlocale("C", "all"))
collectgarbage("stop")

local function hex(bytes)
  return (bytes:gsub(".", function(c) return string.format("%02x", c:byte()) end))
end

local function shown(v)
  if v == nil then return "b000" end
  if type(v) == "boolean" then return v and "b00101" or "b00100" end
  if math.type(v) == "integer" then return "b002" .. hex(string.pack(">i8", v)) end
  if type(v) == "number" then return "b003" .. (v ~= v and "7ff8000000000000" or hex(string.pack(">d", v))) end
  assert(type(v) == "string", "a program returned a " .. type(v))
  return "b004" .. hex(v)
end

local function written(ok, ...)
  if not ok then
    local line, text = (...):match("^[^:]*:(%d+): (.*)$")
    return "error " .. line .. " " .. text
  end
  local out = { "ok" }
  for i = 1, select("#", ...) do out[#out + 1] = shown((select(i, ...))) end
  return table.concat(out, " ")
end

for i = 1, tonumber(arg[2]) do
  local file = assert(io.open(arg[1] .. "/" .. i .. ".lua", "rb"))
  local source = file:read("a")
  file:close()
  print(written(pcall(assert(load(source, "=program", "t", {})))))
end
