class Nothing {
    static void out(int number) { System.out.println(number); }

    public static void main(String[] words) {
        out(0);
    }
}
