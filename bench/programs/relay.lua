local sum, count = 0, 0
for reading in io.read("*l"):gmatch("%d+") do
  sum = (sum * 3 + tonumber(reading)) % 100003
  io.write("out ", sum, "\n")
  count = count + 1
end
io.write("out ", count, "\n")
