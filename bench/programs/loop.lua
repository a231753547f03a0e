local i, sum = 0, 0
while i < 4000000 do sum = -sum + i; i = i + 1 end
print(sum)
