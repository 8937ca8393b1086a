-- The same sizes beside numbers: each is multiplied by a share and compared with a limit, neither of which is an integer.
local kept, large = 0.0, 0
for chunk = 1, 10000000 do
  local bytes = chunk * 419431
  kept = kept + bytes * 0.75
  if bytes > 2.5e12 then
    large = large + 1
  end
end
return kept, large
