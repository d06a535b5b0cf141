/** Strings that are appended to: each is longer than the last, which goes; every hundredth is kept for a while. */
public class Appends {
    public static void main(String[] args) {
        String[] kept = new String[500];
        int count = 0;
        for (int turn = 0; turn < 600; turn++) {
            String text = "";
            for (int i = 0; i < 100; i++) {
                text = text + (char) ('a' + i % 26);
                count += text.length();
            }
            kept[turn % 500] = text;
        }
        System.out.println(count + kept[7].length());
    }
}
