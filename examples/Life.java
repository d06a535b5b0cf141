/** A few turns of the game of life, on a board whose edges meet. */
public class Life {
    private static final int SIZE = 12;

    private boolean[] alive = new boolean[SIZE * SIZE];

    private boolean at(int row, int column) {
        return alive[(row + SIZE) % SIZE * SIZE + (column + SIZE) % SIZE];
    }

    private int around(int row, int column) {
        int count = 0;
        for (int i = -1; i <= 1; i++) {
            for (int j = -1; j <= 1; j++) {
                if ((i != 0 || j != 0) && at(row + i, column + j)) {
                    count++;
                }
            }
        }
        return count;
    }

    void turn() {
        boolean[] next = new boolean[SIZE * SIZE];
        for (int row = 0; row < SIZE; row++) {
            for (int column = 0; column < SIZE; column++) {
                switch (around(row, column)) {
                    case 2:
                        next[row * SIZE + column] = at(row, column);
                        break;
                    case 3:
                        next[row * SIZE + column] = true;
                        break;
                    default:
                }
            }
        }
        alive = next;
    }

    void print() {
        for (int row = 0; row < SIZE; row++) {
            for (int column = 0; column < SIZE; column++) {
                System.out.print(at(row, column) ? '#' : '.');
            }
            System.out.println();
        }
    }

    public static void main(String[] arguments) {
        Life life = new Life();
        int[] glider = {1, SIZE + 2, 2 * SIZE, 2 * SIZE + 1, 2 * SIZE + 2};
        for (int cell : glider) {
            life.alive[cell] = true;
        }
        for (int i = 0; i < 20; i++) {
            life.turn();
        }
        life.print();
    }
}
