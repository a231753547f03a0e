local function tak(x, y, z)
  if y >= x then return z end
  return tak(tak(x - 1, y, z), tak(y - 1, z, x), tak(z - 1, x, y))
end
local result
for again = 0, 5 do result = tak(18, 12, 6) end
print(result)
