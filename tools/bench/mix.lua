-- 64-bit mixing: shifts, exclusive or, multiplication that wraps.
local x = 88172645463325252
local sum = 0
for i = 1, 8000000 do
  x = x ~ (x << 13)
  x = x ~ (x >> 7)
  x = x ~ (x << 17)
  sum = sum + (x * 0x2545f4914f6cdd1d >> 32)
end
return sum
