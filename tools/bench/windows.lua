-- Windows of calls: functions of 0 to 9 parameters and 0 to 9 results, with arguments missing and to spare, 0 to 10 results wanted.
local function none() end
local function one(a) return a end
local function three(a, b, c) return c, b, a end
local function five(a, b, c, d, e) local x, y, z, u, v, w, q, r, s, t = a, b, c, d, e; local k, l, m, n; return a, b, c, d, e, k end
local function nine(a, b, c, d, e, f, g, h, i) local p, q, r, s, t; return i, h, g, f, e, d, c, b, a end
local function big(a) local b, c, d, e, f, g, h, i, j, k, l, m, n, o, p, q, r, s, t, u, v, w; return a, w, v, a, u, t, a end
local acc = 0
for i = 1, 100000 do
  local a = one(i, 2, 3)
  local b, c = one()
  none(a, b, c)
  local d, e, f = three(i, i + 1)
  local g, h = three(i, i + 1, i + 2, i + 3)
  local j, k, l, m = three(1, 2, 3)
  local n, o, p, q, r, s, t, u = five(1.5, 2, 3, true, 5, 6, 7)
  local n1, n2, n3 = five(i)
  local v, w, x, y, z, z1, z2, z3, z4, z5 = nine(1, 2, 3, 4, 5, 6, 7, i, 9, 10)
  local v1, w1 = nine(1, 2, 3, 4)
  local b1, b2, b3, b4, b5, b6, b7, b8 = big(i)
  local c1 = big()
  acc = acc + a + e + g + j + v + b1 + b4
  if f == nil then acc = acc + 1 end
end
return acc
