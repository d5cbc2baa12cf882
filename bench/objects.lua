-- Objects: a list is made, turned round, added up and let go.
local function main()
  local turns = 200
  local sum = 0
  local t = 0
  while t < turns do
    local first = nil
    local i = 0
    while i < 300 do
      local one = { value = i, next = first }
      first = one
      i = i + 1
    end
    local turned = nil
    while first do
      local one = first.next
      first.next = turned
      turned = first
      first = one
    end
    while turned do
      sum = sum * 3 % 1000003 + turned.value
      turned = turned.next
    end
    t = t + 1
  end
  print(string.format("%d", sum))
end

main()
