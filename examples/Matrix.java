/** The product of two matrices of ints, and the sum of what it holds. */
public class Matrix {
    final int[][] rows;

    Matrix(int size, int seed) {
        rows = new int[size][];
        for (int i = 0; i < size; i++) {
            rows[i] = new int[size];
            for (int j = 0; j < size; j++) {
                rows[i][j] = (i * 31 + j * 17 + seed) % 10;
            }
        }
    }

    Matrix times(Matrix other) {
        int size = rows.length;
        Matrix product = new Matrix(size, 0);
        for (int i = 0; i < size; i++) {
            for (int j = 0; j < size; j++) {
                int sum = 0;
                for (int k = 0; k < size; k++) {
                    sum += rows[i][k] * other.rows[k][j];
                }
                product.rows[i][j] = sum;
            }
        }
        return product;
    }

    long sum() {
        long sum = 0;
        for (int[] row : rows) {
            for (int number : row) {
                sum += number;
            }
        }
        return sum;
    }

    public static void main(String[] arguments) {
        System.out.println(new Matrix(30, 3).times(new Matrix(30, 7)).sum());
    }
}
