-- Fibonacci by recursion, the function handed to itself.
local fib = function(self, n)
  if n < 2 then
    return n
  end
  local a = self(self, n - 1)
  local b = self(self, n - 2)
  return a + b
end
local sum = 0
for i = 1, 7000 do
  local f = fib(fib, 13)
  sum = sum + f
end
return sum
