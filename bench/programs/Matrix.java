class Matrix {
    static void out(int number) { System.out.println(number); }

    public static void main(String[] words) {
        int[] a = new int[2304], b = new int[2304], c = new int[2304];
        for (int i = 0; i < 2304; i++) { a[i] = i % 101 - 50; b[i] = 40 - i % 89; }
        for (int round = 0; round < 4; round++) {
            for (int row = 0; row < 48; row++) {
                for (int column = 0; column < 48; column++) {
                    int sum = 0;
                    for (int k = 0; k < 48; k++) { sum = sum + a[row * 48 + k] * b[k * 48 + column]; }
                    c[row * 48 + column] = sum;
                }
            }
        }
        int total = 0;
        for (int i = 0; i < 2304; i++) { total = total + c[i] % 1000; }
        out(total);
    }
}
