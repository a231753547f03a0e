class Loop {
    static void out(int number) { System.out.println(number); }

    public static void main(String[] words) {
        int i = 0, sum = 0;
        while (i < 4000000) { sum = -sum + i; i = i + 1; }
        out(sum);
    }
}
