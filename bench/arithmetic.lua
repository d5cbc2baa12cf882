-- Arithmetic in local variables: numbers of a linear generator, mixed into one.
local function main()
  local turns = 400000
  local x = 1
  local sum = 0
  local i = 0
  while i < turns do
    x = (x * 1664525 + 1013904223) & 0xFFFFFFFF
    sum = (sum + ((x >> 16) ~ (x & 255))) & 0xFFFFFFFF
    if x % 3 == 0 then sum = (sum * 5 + 1) & 0xFFFFFFFF end
    i = i + 1
  end
  print(string.format("%d", sum))
end

main()
