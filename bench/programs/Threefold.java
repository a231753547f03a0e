class Threefold {
    static void out(int number) { System.out.println(number); }

    static int tak(int x, int y, int z) {
        return y >= x ? z : tak(tak(x - 1, y, z), tak(y - 1, z, x), tak(z - 1, x, y));
    }

    public static void main(String[] words) {
        int result = 0;
        for (int again = 0; again < 6; again++) { result = tak(18, 12, 6); }
        out(result);
    }
}
