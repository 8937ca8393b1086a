-- A helper that remembers a town's cut-off date, called ten million times.
local function cutoff(today, years)
  local before = today - years * 365
  return function(closed)
    return closed < before
  end
end
local releases = cutoff(20407, 7)
local count = 0
for i = 1, 10000000 do
  if releases(i % 32768) then
    count = count + 1
  end
end
return count
