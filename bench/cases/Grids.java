/** Arrays of arrays that are made at once, and classes that begin with strings as constants of static fields. */
public class Grids extends Titled {
    static final String TITLE = "grids";
    static final String SAME = "grids";
    static final long AREA = 12L;
    static int rows = 3;

    static int filled(int[][] grid) {
        int sum = 0;
        for (int row = 0; row < grid.length; row++) {
            for (int column = 0; column < grid[row].length; column++) {
                grid[row][column] = 10 * row + column;
                sum += grid[row][column];
            }
        }
        return sum;
    }

    static void refused(int rows, int columns) {
        try {
            long[][] grid = new long[rows][columns];
            System.out.println(grid.length);
        } catch (NegativeArraySizeException refusal) {
            System.out.println("negative");
        }
    }

    public static void main(String[] args) {
        System.out.println(TITLE);
        System.out.println(count);
        int[][] grid = new int[rows][4];
        System.out.println(filled(grid));
        System.out.println(grid[2][3]);
        System.out.println(grid[0] == grid[1]);
        boolean[][][] open = new boolean[2][3][];
        System.out.println(open[1].length);
        System.out.println(open[1][2] == null);
        String[][] texts = new String[2][2];
        texts[1][0] = SAME;
        System.out.println(texts[1][0] == TITLE);
        System.out.println(texts[0][0] == null);
        System.out.println(new int[0][5].length);
        refused(2, 0);
        refused(0, -1);
        refused(-1, 2);
        refused(-1, -1);
        Object[] rowsAsObjects = grid;
        try {
            rowsAsObjects[0] = new long[4];
        } catch (ArrayStoreException refusal) {
            System.out.println("no row of ints");
        }
        Titled[][] other = new Grids[1][2];
        System.out.println(other[0].length + Late.start);
    }
}

class Titled {
    static final String NAME = "named";
    static int count = Grids.rows + 1;
}

class Late extends Titled {
    static final String WHEN = "late";
    static final boolean SET = true;
    static int start = begun();

    static int begun() {
        System.out.println(WHEN);
        return 40;
    }
}
