class Adder {
    public static void main(String[] words) {
        boolean[] total = new boolean[32], step = new boolean[32];
        step[0] = true;
        step[3] = true;
        step[7] = true;
        for (int round = 0; round < 10000; round++) {
            boolean carry = false;
            for (int i = 0; i < 32; i++) {
                boolean left = total[i], right = step[i];
                boolean either = left != right;
                total[i] = either != carry;
                carry = left && right || carry && either;
            }
        }
        int ones = 0;
        for (int i = 0; i < 32; i++) { if (total[i]) { ones = ones + i; } }
        System.out.println(ones);
    }
}
