local count
for round = 1, 10 do
  local composite = {}
  for i = 0, 65535 do composite[i] = false end
  count = 0
  local i = 2
  while i < 65536 do
    if not composite[i] then
      count = count + 1
      local multiple = i + i
      while multiple < 65536 do composite[multiple] = true; multiple = multiple + i end
    end
    i = i + 1
  end
end
print(count)
