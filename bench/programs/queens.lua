ways, columns, rising, falling = 0, {}, {}, {}
for i = 0, 14 do columns[i] = false; rising[i] = false; falling[i] = false end
function place(row)
  if row == 8 then ways = ways + 1; return end
  local column = 0
  while column < 8 do
    if not columns[column] and not rising[row + column] and not falling[row - column + 7] then
      columns[column] = true
      rising[row + column] = true
      falling[row - column + 7] = true
      place(row + 1)
      columns[column] = false
      rising[row + column] = false
      falling[row - column + 7] = false
    end
    column = column + 1
  end
end
for round = 1, 10 do place(0) end
print(ways)
