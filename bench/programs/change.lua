local ways, coins = {}, {[0] = 1, 2, 5, 10, 20, 50, 100, 200}
for round = 1, 10 do
  for i = 1, 5000 do ways[i] = 0 end
  ways[0] = 1
  local coin = 0
  while coin < 8 do
    local amount = coins[coin]
    while amount <= 5000 do
      ways[amount] = (ways[amount] + ways[amount - coins[coin]]) % 1000003
      amount = amount + 1
    end
    coin = coin + 1
  end
end
print(ways[5000])
