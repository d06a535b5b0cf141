public class MultiArrays {
    public static void main(String[] args) {
        int[][][] a = new int[2][3][4]; a[1][2][3] = 7; a[0] = a[1]; System.out.println(a[0][2][3]); System.out.println(a[0][1] == a[1][1]); System.out.println(a[0][0] == a[0][1]);
        long[][] l = new long[3][2]; l[2][1] = 5; System.out.println(l[2][1] + l[0][0]); System.out.println(l.length); System.out.println(l[1].length);
        String[][][] s = new String[2][2][]; System.out.println(s[1][1] == null); System.out.println(s.getClass().getName()); System.out.println(s[0].getClass().getName());
        int[][] e = new int[0][5]; System.out.println(e.length); int[][] f = new int[2][0]; System.out.println(f[1].length); char[][] g = { { 'a', 'b' }, {}, { 'c' } };
        for (char[] r : g) { for (char c : r) System.out.print(c); System.out.println(r.length); }
        int k = 0; for (int[][] p : a) for (int[] q : p) for (int x : q) k = k * 2 + x; System.out.println(k);
        boolean[][] z = new boolean[2][2]; z[1][0] = true; System.out.println(z[1][0]); byte[][] b = new byte[1][1]; short[][] h = new short[1][1]; b[0][0] = -1; h[0][0] = -1; System.out.println(b[0][0] + h[0][0]);
        System.out.println(a instanceof Object); Object o = a; System.out.println(o instanceof Object[][]); System.out.println(o instanceof Object[][][]); System.out.println(o instanceof int[][]);
    }
}
