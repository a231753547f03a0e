local cells, after = {}, {}
for i = 0, 511 do cells[i] = false; after[i] = false end
cells[511] = true
local turn = 0
while turn < 300 do
  local i = 1
  while i < 511 do
    local left, here, right = cells[i - 1], cells[i], cells[i + 1]
    after[i] = here ~= right or not left and here
    i = i + 1
  end
  after[511] = true
  i = 0
  while i < 512 do cells[i] = after[i]; i = i + 1 end
  turn = turn + 1
end
local alive, i = 0, 0
while i < 512 do if cells[i] then alive = alive + 1 end; i = i + 1 end
print(alive)
