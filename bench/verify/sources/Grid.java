class Grid {
    static final byte[][] CELLS = { { 1, 0 }, { 0, 1, 1 } };
    static final char[] SIGNS = { '.', '#' };
    boolean[][] seen = new boolean[3][3];
    short[][][] deep = new short[2][2][];
    static String line(byte[] row) {
        StringBuilder text = new StringBuilder();
        for (byte cell : row) text.append(SIGNS[cell & 1]);
        return text.toString();
    }
    int fill(int x, int y) {
        if (x < 0 || y < 0 || x >= seen.length || y >= seen[x].length || seen[x][y]) return 0;
        seen[x][y] = true;
        int count = 1;
        for (int[] step : new int[][] { { 1, 0 }, { 0, 1 } }) count += fill(x + step[0], y + step[1]);
        return count;
    }
    long total() {
        deep[0][1] = new short[] { 3, (short) 70000 };
        long total = 0;
        for (short[][] plane : deep)
            for (short[] row : plane)
                if (row != null)
                    for (short cell : row) total += cell;
        CELLS[0][0] ^= 1;
        SIGNS[0]++;
        return total;
    }
    public static void main(String[] args) {
        for (byte[] row : CELLS) System.out.println(line(row));
        Grid grid = new Grid();
        System.out.println(grid.fill(0, 0) + grid.total());
    }
}
