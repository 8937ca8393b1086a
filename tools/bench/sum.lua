-- A counting loop.
local sum = 0
for i = 1, 50000000 do
  sum = sum + i
end
return sum
