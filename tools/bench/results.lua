-- Results: recursion of up to 13 calls, each of which hands on three results, two of them swapped; and two numbers of a short call.
local function deep(self, n, a, b) if n == 0 then return a, b, n end local x, y, z = self(self, n - 1, b, a) return y, x, z end
local function fl(x, y) if x < y then return x * 0.5, y end return y - x, x / 3.0 end
local s, f = 0, 1.25
for i = 1, 100000 do
  local p, q, r = deep(deep, i % 13, i, s)
  s = s + p % 7 - q // 5
  local g, h = fl(f, 3.5)
  f = g + h * 0.25
  if f > 100.0 then f = f - 99.5 end
end
return s, f
