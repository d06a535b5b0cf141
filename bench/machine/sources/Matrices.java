public class Matrices {
    static long[][] times(long[][] a, long[][] b) { long[][] c = new long[a.length][b[0].length]; for (int i = 0; i < a.length; i++) for (int j = 0; j < b[0].length; j++) for (int k = 0; k < b.length; k++) c[i][j] += a[i][k] * b[k][j]; return c; }
    public static void main(String[] args) { long[][] m = { { 1, 1 }, { 1, 0 } }, r = { { 1, 0 }, { 0, 1 } }; for (int n = 60; n > 0; n >>= 1) { if ((n & 1) == 1) r = times(r, m); m = times(m, m); } System.out.println(r[0][1]); System.out.println(r[0][0]); try { times(m, new long[][] { { 1 } })[0][0]++; System.out.println("fits"); } catch (ArrayIndexOutOfBoundsException e) { System.out.println("sizes"); } }
}
