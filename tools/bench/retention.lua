-- A retention rule over ten million chunks: keep what is younger than seven years or held, thin the rest out.
local today = 7305
local release = 0
local bytes = 0
local seed = 12345
for chunk = 1, 10000000 do
  seed = (seed * 1103515245 + 12345) % 2147483648
  local written = seed % 7305
  local size = 4096 + seed // 7305 % 4096
  local held = seed % 97 == 0
  local age = today - written
  if age > 2556 and not held then
    if age % 30 ~= 0 or age > 5475 then
      release = release + 1
      bytes = bytes + size
    end
  end
end
return release, bytes
