/** Reading and writing, with many calls and ints in local variables above 3. */
class Text {
    private final byte[] buffer = new byte[64];
    private int at;
    private int end;

    int read() throws java.io.IOException {
        if (at == end) {
            end = System.in.read(buffer, 0, buffer.length);
            at = 0;
            if (end <= 0) {
                return -1;
            }
        }
        return buffer[at++] & 255;
    }

    long number() throws java.io.IOException {
        int c = read();
        boolean negative = c == '-';
        long value = 0;
        for (c = negative ? read() : c; c >= '0' && c <= '9'; c = read()) {
            value = value * 10 + (c - '0');
        }
        return negative ? -value : value;
    }

    static String reversed(String text, char old, char other, boolean upper, int from) {
        StringBuilder out = new StringBuilder(text.length());
        for (int place = text.length() - 1, count = 0; place >= from; place--, count += 2) {
            char c = text.charAt(place);
            long wide = c;
            char written = c == old ? other : upper && c >= 'a' && c <= 'z' ? (char) (wide - 32) : c;
            out.append(written).append(count > 100 ? "!" : "");
        }
        return out.length() == 0 ? null : out.toString();
    }

    static int compare(String one, String other) {
        int length = Math.min(one.length(), other.length());
        for (int i = 0; i < length; i++) {
            int difference = one.charAt(i) - other.charAt(i);
            if (difference != 0) {
                return difference > 0 ? 1 : -1;
            }
        }
        return Integer.compare(one.length(), other.length());
    }

    public static void main(String[] words) throws java.io.IOException {
        Text text = new Text();
        long sum = 0;
        int turns = 0;
        do {
            sum += text.number();
        } while (++turns < 3);
        System.out.println(sum);
        System.out.println(reversed("some text", 't', 'T', turns > 2, 1) + compare("a", "b"));
    }
}
