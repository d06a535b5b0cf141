/** Boxes that are made, added up and dropped; a table keeps the last 50,000. */
public class Boxes {
    public static void main(String[] args) {
        Integer[] table = new Integer[50000];
        Integer sum = 0;
        for (int i = 0; i < 1000000; i++) {
            table[i % 50000] = i + 1000;
            sum = sum + table[i % 50000 / 2];
        }
        System.out.println(sum);
    }
}
