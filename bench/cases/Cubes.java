/** Arrays of three dimensions and more that are made at once. */
public class Cubes {
    static int made;

    static long sum(long[][][] cube) {
        long sum = 0L;
        for (int i = 0; i < cube.length; i++) {
            for (int j = 0; j < cube[i].length; j++) {
                for (int k = 0; k < cube[i][j].length; k++) {
                    cube[i][j][k] = 100L * i + 10 * j + k;
                    sum += cube[i][j][k];
                }
            }
        }
        return sum;
    }

    static boolean different(Object[][] rows) {
        for (int i = 0; i < rows.length; i++) {
            for (int j = 0; j < rows[i].length; j++) {
                for (int k = 0; k < rows.length; k++) {
                    for (int l = 0; l < rows[k].length; l++) {
                        if ((i != k || j != l) && rows[i][j] == rows[k][l]) {
                            return false;
                        }
                    }
                }
            }
        }
        return true;
    }

    static int size(int of) {
        made = 10 * made + of;
        return of;
    }

    static void refused(int first, int second, int third) {
        try {
            short[][][] cube = new short[first][second][third];
            System.out.println(cube.length);
        } catch (NegativeArraySizeException refusal) {
            System.out.println("negative");
        }
    }

    public static void main(String[] args) {
        long[][][] cube = new long[3][4][5];
        System.out.println(sum(cube));
        System.out.println(cube[2][3][4]);
        System.out.println(different(cube));
        byte[][][][] deep = new byte[2][3][1][4];
        deep[1][2][0][3] = (byte) 200;
        System.out.println(deep[1][2][0][3]);
        System.out.println(deep[0][2][0][3] + deep[1][1][0][3]);
        System.out.println(different(deep));
        String[][][][] open = new String[2][2][3][];
        System.out.println(open[1][1].length);
        System.out.println(open[1][1][2] == null);
        char[][][][][] five = new char[1][2][1][2][3];
        five[0][1][0][1][2] = 'z';
        System.out.println(five[0][1][0][1][2]);
        System.out.println((int) five[0][0][0][1][2]);
        System.out.println(new int[2][0][7].length);
        System.out.println(new int[2][0][7][1].length);
        System.out.println(new int[0][9][7].length);
        boolean[][][] none = new boolean[2][3][0];
        System.out.println(none[1][2].length);
        int[][][] told = new int[size(1)][size(2)][size(3)];
        System.out.println(made);
        System.out.println(told[0][1].length);
        refused(1, 1, -1);
        refused(0, -1, 1);
        refused(-1, 0, 0);
        refused(-1, -2, -3);
        Object[] outer = cube;
        System.out.println(outer instanceof long[][][]);
        System.out.println(outer[0] instanceof long[][]);
        System.out.println(outer[0] instanceof Object[]);
        try {
            outer[1] = new long[4];
        } catch (ArrayStoreException refusal) {
            System.out.println("no row");
        }
        try {
            System.out.println(cube[0][4][0]);
        } catch (ArrayIndexOutOfBoundsException refusal) {
            System.out.println("outside");
        }
    }
}
