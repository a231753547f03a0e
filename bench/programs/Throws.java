class Throws {
    static void out(int number) { System.out.println(number); }

    public static void main(String[] words) {
        RuntimeException oops = new RuntimeException("oops", null, false, false) { };
        int caught = 0;
        for (int i = 0; i < 200000; i++) {
            try { throw oops; } catch (RuntimeException e) { caught = caught + 1; }
        }
        out(caught);
    }
}
