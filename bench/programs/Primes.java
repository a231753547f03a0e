class Primes {
    static void out(int number) { System.out.println(number); }

    public static void main(String[] words) {
        int count = 1;
        for (int n = 3; n < 40000; n = n + 2) {
            boolean prime = true;
            int divisor = 3;
            while (prime && divisor * divisor <= n) {
                if (n % divisor == 0) { prime = false; }
                divisor = divisor + 2;
            }
            if (prime) { count = count + 1; }
        }
        out(count);
    }
}
