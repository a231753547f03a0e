local sum, a = 0, 1
while a < 400 do
  local b = 1
  while b < 400 do
    local x, y = a, b
    while y ~= 0 do local rest = x % y; x = y; y = rest end
    sum = sum + x
    b = b + 1
  end
  a = a + 1
end
print(sum)
