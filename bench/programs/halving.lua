local longest, first = 0, 1
while first < 20000 do
  local n, length = first, 0
  while n ~= 1 do
    if n % 2 == 0 then n = n // 2 else n = 3 * n + 1 end
    length = length + 1
  end
  if length > longest then longest = length end
  first = first + 1
end
print(longest)
