-- Mandelbrot's set on a grid: arithmetic on numbers.
local inside = 0
for row = 0, 299 do
  local ci = row / 150 - 1.0
  for column = 0, 299 do
    local cr = column / 100 - 2.0
    local zr = 0.0
    local zi = 0.0
    local n = 0
    while n < 200 do
      local r2 = zr * zr
      local i2 = zi * zi
      if r2 + i2 > 4.0 then
        break
      end
      zi = 2.0 * zr * zi + ci
      zr = r2 - i2 + cr
      n = n + 1
    end
    if n == 200 then
      inside = inside + 1
    end
  end
end
return inside
