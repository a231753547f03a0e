class Sieve {
    static void out(int number) { System.out.println(number); }

    public static void main(String[] words) {
        int count = 0;
        for (int round = 0; round < 10; round++) {
            boolean[] composite = new boolean[65536];
            count = 0;
            int i = 2;
            while (i < 65536) {
                if (!composite[i]) {
                    count = count + 1;
                    int multiple = i + i;
                    while (multiple < 65536) { composite[multiple] = true; multiple = multiple + i; }
                }
                i = i + 1;
            }
        }
        out(count);
    }
}
