-- Calls of a function by itself: Fibonacci numbers, the slow way.
local function fibonacci(n)
  if n < 2 then return n end
  return fibonacci(n - 1) + fibonacci(n - 2)
end

local function main()
  local turns = 200
  local sum = 0
  local t = 0
  while t < turns do
    sum = sum + fibonacci(15)
    t = t + 1
  end
  print(string.format("%d", sum))
end

main()
