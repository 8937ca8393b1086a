-- Whom the message of an operator's error names, where the operands are the parameters a and b: `1` or `2`; `z` for a zero divisor; `e` where the
-- message has only the operands' kinds. It stops at a message that isn't one of these.
local naming = {
  "attempt to perform arithmetic on a %a+ value %(local '([ab])'%)$",
  "attempt to perform bitwise operation on a %a+ value %(local '([ab])'%)$",
  "number %(local '([ab])'%) has no integer representation$",
}
local by_zero = { "attempt to divide by zero$", "attempt to perform 'n%%0'$" }
local of_kinds = { "attempt to compare %a+ with %a+$", "attempt to compare two %a+ values$", "attempt to %a+ a '%a+' with a '%a+'$" }

local function match(message, patterns)
  for _, pattern in ipairs(patterns) do
    local found = message:match(pattern)
    if found then return found end
  end
end

return function(message)
  local name = match(message, naming)
  if name then return name == "a" and "1" or "2" end
  if match(message, by_zero) then return "z" end
  if match(message, of_kinds) then return "e" end
  io.stderr:write("whom does this name? ", message, "\n")
  os.exit(1)
end
