/** In how many ways so many queens stand on a board without threatening each other. */
public class Queens {
    private final int size;
    private final boolean[] columns;
    private final boolean[] rising;
    private final boolean[] falling;

    Queens(int size) {
        this.size = size;
        columns = new boolean[size];
        rising = new boolean[2 * size];
        falling = new boolean[2 * size];
    }

    int ways(int row) {
        if (row == size) {
            return 1;
        }
        int ways = 0;
        for (int column = 0; column < size; column++) {
            int up = row + column;
            int down = row - column + size;
            if (!columns[column] && !rising[up] && !falling[down]) {
                columns[column] = rising[up] = falling[down] = true;
                ways += ways(row + 1);
                columns[column] = rising[up] = falling[down] = false;
            }
        }
        return ways;
    }

    public static void main(String[] arguments) {
        for (int size = 1; size <= 7; size++) {
            System.out.print(new Queens(size).ways(0));
            System.out.print(size < 7 ? ' ' : '\n');
        }
    }
}
