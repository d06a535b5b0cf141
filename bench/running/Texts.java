// Numbers in a builder, texts taken from it, searched, compared and parsed again.
public class Texts {
    public static void main(String[] args) {
        int sum = 0;
        for (int turn = 0; turn < 2000; turn++) {
            StringBuilder builder = new StringBuilder();
            for (int i = 0; i < 100; i++) {
                builder.append(i * turn).append(',');
            }
            String text = builder.toString();
            int from = 0;
            while (from < text.length()) {
                int to = from;
                while (text.charAt(to) != ',') {
                    to++;
                }
                sum += Integer.parseInt(text.substring(from, to));
                from = to + 1;
            }
            sum += text.hashCode() + text.indexOf("99,");
            if (text.equals("never") || text.compareTo("0,") < 0) {
                sum++;
            }
        }
        System.out.println(sum);
    }
}
