import java.io.BufferedReader;
import java.io.IOException;
import java.io.InputStreamReader;

class Relay {
    public static void main(String[] words) throws IOException {
        BufferedReader in = new BufferedReader(new InputStreamReader(System.in));
        StringBuilder out = new StringBuilder();
        int sum = 0, count = 0, reading = -1;
        for (int c = in.read(); c != -1; c = in.read()) {
            if (c >= '0' && c <= '9') {
                reading = Math.max(reading, 0) * 10 + c - '0';
            } else if (reading >= 0) {
                sum = (sum * 3 + reading) % 100003;
                out.append("out ").append(sum).append('\n');
                count++;
                reading = -1;
            }
        }
        System.out.println(out.append("out ").append(count));
    }
}
