class Checksum {
    static void out(int number) { System.out.println(number); }

    public static void main(String[] words) {
        int a = 1, b = 0, bytes = 17;
        for (int i = 0; i < 600000; i++) {
            bytes = (bytes * 5 + 3) % 256;
            a = (a + bytes) % 65521;
            b = (b + a) % 65521;
        }
        out(a * 3 + b);
    }
}
