-- Years that are kept as text: every turn reads one. The sum is an integer here and in lua5.4, a float in lua5.3: `| 0` makes them one.
local year = "7"
local total = 0
for chunk = 1, 2000000 do
  total = total + year
end
return total | 0
