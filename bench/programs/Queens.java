class Queens {
    static void out(int number) { System.out.println(number); }

    static int ways = 0;
    static boolean[] columns = new boolean[8], rising = new boolean[15], falling = new boolean[15];
    static void place(int row) {
        if (row == 8) { ways = ways + 1; return; }
        for (int column = 0; column < 8; column++) {
            if (!columns[column] && !rising[row + column] && !falling[row - column + 7]) {
                columns[column] = true; rising[row + column] = true; falling[row - column + 7] = true;
                place(row + 1);
                columns[column] = false; rising[row + column] = false; falling[row - column + 7] = false;
            }
        }
    }

    public static void main(String[] words) {
        for (int round = 0; round < 10; round++) { place(0); }
        out(ways);
    }
}
