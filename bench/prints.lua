-- Prints: a line of two numbers, many times.
local function main()
  local turns = 100000
  local x = 1
  local i = 0
  while i < turns do
    x = (x * 1664525 + 1013904223) & 0xFFFFFFFF
    io.write(string.format("%d %d\n", i, x))
    i = i + 1
  end
end

main()
