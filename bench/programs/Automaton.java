class Automaton {
    static void out(int number) { System.out.println(number); }

    public static void main(String[] words) {
        boolean[] cells = new boolean[512], after = new boolean[512];
        cells[511] = true;
        for (int turn = 0; turn < 300; turn++) {
            for (int i = 1; i < 511; i++) {
                boolean left = cells[i - 1], here = cells[i], right = cells[i + 1];
                after[i] = here != right || !left && here;
            }
            after[511] = true;
            for (int i = 0; i < 512; i++) { cells[i] = after[i]; }
        }
        int alive = 0;
        for (int i = 0; i < 512; i++) { if (cells[i]) { alive = alive + 1; } }
        out(alive);
    }
}
