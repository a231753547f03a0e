class Change {
    static void out(int number) { System.out.println(number); }

    public static void main(String[] words) {
        int[] ways = new int[5001], coins = {1, 2, 5, 10, 20, 50, 100, 200};
        for (int round = 0; round < 10; round++) {
            for (int i = 1; i <= 5000; i++) { ways[i] = 0; }
            ways[0] = 1;
            for (int coin = 0; coin < 8; coin++) {
                int amount = coins[coin];
                while (amount <= 5000) { ways[amount] = (ways[amount] + ways[amount - coins[coin]]) % 1000003; amount = amount + 1; }
            }
        }
        out(ways[5000]);
    }
}
