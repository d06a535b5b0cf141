// Products of matrices of ints.
class Matrix {
    static int[][] made(int size, int seed) {
        int[][] matrix = new int[size][size];
        for (int i = 0; i < size; i++) {
            for (int j = 0; j < size; j++) {
                seed = seed * 1103515245 + 12345;
                matrix[i][j] = seed >> 16;
            }
        }
        return matrix;
    }

    static int[][] product(int[][] a, int[][] b) {
        int size = a.length;
        int[][] c = new int[size][size];
        for (int i = 0; i < size; i++) {
            for (int j = 0; j < size; j++) {
                int sum = 0;
                for (int k = 0; k < size; k++) {
                    sum += a[i][k] * b[k][j];
                }
                c[i][j] = sum;
            }
        }
        return c;
    }

    public static void main(String[] args) {
        int[][] matrix = made(150, 1);
        int[][] other = made(150, 2);
        for (int round = 0; round < 3; round++) {
            matrix = product(matrix, other);
        }
        System.out.println(matrix[7][11]);
    }
}
