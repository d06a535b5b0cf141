// input: "3\n10\n-20\n35\n"
public class ReadLines {
    static int number() throws java.io.IOException { int c = System.in.read(), n = 0; boolean minus = false; while (c != '\n' && c != -1) { if (c == '-') minus = true; else n = n * 10 + (c - '0'); c = System.in.read(); } return minus ? -n : n; }
    public static void main(String[] args) throws java.io.IOException { int n = number(), sum = 0; for (int i = 0; i < n; i++) { int x = number(); sum += x; System.out.println("read " + x + ", so far " + sum); } System.out.println(System.in.read()); }
}
