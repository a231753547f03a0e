local total, step = {}, {}
for i = 0, 31 do total[i] = false; step[i] = false end
step[0] = true
step[3] = true
step[7] = true
for round = 1, 10000 do
  local carry = false
  for i = 0, 31 do
    local left, right = total[i], step[i]
    local either = left ~= right
    total[i] = either ~= carry
    carry = left and right or carry and either
  end
end
local ones = 0
for i = 0, 31 do if total[i] then ones = ones + i end end
print(ones)
