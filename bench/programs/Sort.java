class Sort {
    static void out(int number) { System.out.println(number); }

    public static void main(String[] words) {
        int[] numbers = new int[4000];
        int found = 0;
        for (int round = 0; round < 3; round++) {
            int seed = 12345 + round;
            for (int i = 0; i < 4000; i++) { seed = (seed * 4096 + 150889) % 714025; numbers[i] = seed; }
            for (int gap = 1093; gap > 0; gap = gap / 3) {
                for (int i = gap; i < 4000; i++) {
                    int moved = numbers[i], j = i;
                    while (j >= gap && numbers[j - gap] > moved) { numbers[j] = numbers[j - gap]; j = j - gap; }
                    numbers[j] = moved;
                }
            }
            found = found + numbers[2000];
        }
        out(found);
    }
}
