local a, b, c = {}, {}, {}
for i = 0, 2303 do a[i] = i % 101 - 50; b[i] = 40 - i % 89; c[i] = 0 end
for round = 1, 4 do
  local row = 0
  while row < 48 do
    local column = 0
    while column < 48 do
      local sum, k = 0, 0
      while k < 48 do sum = sum + a[row * 48 + k] * b[k * 48 + column]; k = k + 1 end
      c[row * 48 + column] = sum
      column = column + 1
    end
    row = row + 1
  end
end
local total, i = 0, 0
while i < 2304 do
  local rest = c[i] % 1000
  if rest > 0 and c[i] < 0 then rest = rest - 1000 end
  total = total + rest
  i = i + 1
end
print(total)
