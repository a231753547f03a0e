state, seed, opened, closed = 0, 1, 0, 0
function step()
  seed = (seed * 1103515245 + 12345) & 0xffffffff
  if seed >= 0x80000000 then seed = seed - 0x100000000 end
  local event = seed
  if event < 0 then event = -event end
  event = event // 65536 % 4
  if state == 0 then
    if event == 1 then state = 1; opened = opened + 1 end
  elseif state == 1 then
    if event == 2 then state = 2 end
    if event == 3 then state = 0; closed = closed + 1 end
  else
    state = event % 2
  end
end
local i = 0
while i < 250000 do step(); i = i + 1 end
print(opened * 3 + closed)
