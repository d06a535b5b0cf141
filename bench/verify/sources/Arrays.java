/** Arrays of arrays, of references and of numbers. */
class Arrays {
    static int[][][] cube(int side) {
        int[][][] cube = new int[side][side][];
        for (int[][] plane : cube) {
            for (int i = 0; i < plane.length; i++) {
                plane[i] = i % 2 == 0 ? new int[] {i, side} : null;
            }
        }
        return cube;
    }

    static Object[] objects(Object first) {
        Object[] objects = {first, null, "text", new Object[2], new long[] {1L}};
        objects[1] = objects;
        Object[] other = first == null ? new String[] {"a"} : first instanceof Object[] ? (Object[]) first : objects;
        return other.length > 2 ? other : (Object[]) other.clone();
    }

    static String[][] grid(String... words) {
        String[][] grid = new String[words.length][];
        for (int i = 0; i < grid.length; i++) {
            String[] row = grid[i] = new String[i + 1];
            row[0] = words[i];
            for (int j = 1; j < row.length; j++) {
                row[j] = row[j - 1].concat(words[j % words.length]);
            }
        }
        return grid;
    }

    static long sums(long[][] table, byte[] bytes, boolean[] flags) {
        long sum = 0;
        for (int i = 0; table != null && i < table.length; i++) {
            long[] row = table[i];
            row[0] += bytes[i];
            sum += row[i]--;
            flags[i] ^= sum > 5L;
            bytes[i] <<= 1;
        }
        return sum;
    }

    static <T> void swap(T[] items, int one, int other) {
        T kept = items[one];
        items[one] = items[other];
        items[other] = kept;
    }

    static int count(Object array) {
        if (array instanceof int[][]) {
            return ((int[][]) array).length;
        }
        Cloneable cloneable = array instanceof long[] ? (long[]) array : null;
        java.io.Serializable serializable = array instanceof byte[] ? (byte[]) array : "text";
        return cloneable == null ? serializable.hashCode() : ((long[]) cloneable).length;
    }

    public static void main(String[] words) {
        String[][] grid = grid("a", "b");
        swap(grid, 0, 1);
        System.arraycopy(objects(null), 0, new Object[5], 0, 1);
        System.out.println(cube(3).length + sums(new long[][] {{1, 2}}, new byte[2], new boolean[2]) + count(new byte[3]) + grid[0][0]);
    }
}
