local a, b, byte, i = 1, 0, 17, 0
while i < 600000 do
  byte = (byte * 5 + 3) % 256
  a = (a + byte) % 65521
  b = (b + a) % 65521
  i = i + 1
end
print(a * 3 + b)
