local numbers, found = {}, 0
for round = 0, 2 do
  local seed, i = 12345 + round, 0
  while i < 4000 do
    seed = seed * 4096 + 150889
    -- A product beyond 32 bits wraps, and a remainder has the sign of what is divided.
    seed = (seed + 0x80000000) % 0x100000000 - 0x80000000
    local rest = seed % 714025
    if rest > 0 and seed < 0 then rest = rest - 714025 end
    seed = rest
    numbers[i] = seed
    i = i + 1
  end
  for _, gap in ipairs({1093, 364, 121, 40, 13, 4, 1}) do
    i = gap
    while i < 4000 do
      local moved, j = numbers[i], i
      while j >= gap and numbers[j - gap] > moved do numbers[j] = numbers[j - gap]; j = j - gap end
      numbers[j] = moved
      i = i + 1
    end
  end
  found = found + numbers[2000]
end
print(found)
