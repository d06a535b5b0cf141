/** An array of 2,000 arrays of 100 numbers, each of which is replaced again and again. */
public class Rows {
    public static void main(String[] args) {
        int[][] rows = new int[2000][100];
        long sum = 0;
        for (int turn = 0; turn < 400; turn++) {
            for (int row = 0; row < rows.length; row++) {
                int[] fresh = new int[100];
                fresh[turn % 100] = row;
                sum += rows[row][(turn + 99) % 100];
                rows[row] = fresh;
            }
        }
        System.out.println(sum);
    }
}
