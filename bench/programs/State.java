class State {
    static void out(int number) { System.out.println(number); }

    static int state = 0, seed = 1, opened = 0, closed = 0;
    static void step() {
        seed = seed * 1103515245 + 12345;
        int event = seed;
        if (event < 0) { event = -event; }
        event = event / 65536 % 4;
        if (state == 0) {
            if (event == 1) { state = 1; opened = opened + 1; }
        } else if (state == 1) {
            if (event == 2) { state = 2; }
            if (event == 3) { state = 0; closed = closed + 1; }
        } else {
            state = event % 2;
        }
    }

    public static void main(String[] words) {
        for (int i = 0; i < 250000; i++) { step(); }
        out(opened * 3 + closed);
    }
}
