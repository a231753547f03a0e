class Fib {
    static void out(int number) { System.out.println(number); }

    static int fib(int n) { return n < 2 ? n : fib(n - 1) + fib(n - 2); }

    public static void main(String[] words) {
        out(fib(27));
    }
}
