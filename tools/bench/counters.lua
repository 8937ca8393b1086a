-- Counters from a maker: two closures over one variable, three pairs of them.
local function counter(step)
  local total = 0
  local function add() total = total + step end
  local function read() return total end
  return add, read
end
local one, ones = counter(1)
local two, twos = counter(2)
local half, halves = counter(0.5)
for i = 1, 2000000 do
  one()
  two()
  if i % 4 == 0 then
    half()
  end
end
return ones(), twos(), (halves())
