local count, n = 1, 3
while n < 40000 do
  local prime, divisor = true, 3
  while prime and divisor * divisor <= n do
    if n % divisor == 0 then prime = false end
    divisor = divisor + 2
  end
  if prime then count = count + 1 end
  n = n + 2
end
print(count)
