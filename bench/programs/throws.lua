local caught, i = 0, 0
while i < 200000 do
  pcall(error, nil)
  caught = caught + 1
  i = i + 1
end
print(caught)
