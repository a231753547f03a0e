class Divisors {
    static void out(int number) { System.out.println(number); }

    public static void main(String[] words) {
        int sum = 0;
        for (int a = 1; a < 400; a++) {
            for (int b = 1; b < 400; b++) {
                int x = a, y = b;
                while (y != 0) { int rest = x % y; x = y; y = rest; }
                sum = sum + x;
            }
        }
        out(sum);
    }
}
