-- Loops over a global table and a global variable: a sieve for primes.
composite = {}
found = 0
for i = 0, 4999 do composite[i] = 0 end

local function main()
  local turns = 20
  local t = 0
  while t < turns do
    found = 0
    local i = 2
    while i < 5000 do
      composite[i] = 0
      i = i + 1
    end
    i = 2
    while i < 5000 do
      if composite[i] == 0 then
        found = found + 1
        local k = i + i
        while k < 5000 do
          composite[k] = 1
          k = k + i
        end
      end
      i = i + 1
    end
    t = t + 1
  end
  print(string.format("%d", found))
end

main()
