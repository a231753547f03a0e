class Halving {
    static void out(int number) { System.out.println(number); }

    public static void main(String[] words) {
        int longest = 0;
        for (int first = 1; first < 20000; first++) {
            int n = first, length = 0;
            while (n != 1) {
                if (n % 2 == 0) { n = n / 2; } else { n = 3 * n + 1; }
                length = length + 1;
            }
            if (length > longest) { longest = length; }
        }
        out(longest);
    }
}
