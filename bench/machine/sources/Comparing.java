public class Comparing {
    static int bits(int a, int b) { int r = 0; if (a == b) r |= 1; if (a != b) r |= 2; if (a < b) r |= 4; if (a >= b) r |= 8; if (a > b) r |= 16; if (a <= b) r |= 32; return r; }
    static int zero(int a) { int r = 0; if (a == 0) r |= 1; if (a != 0) r |= 2; if (a < 0) r |= 4; if (a >= 0) r |= 8; if (a > 0) r |= 16; if (a <= 0) r |= 32; return r; }
    static int refs(Object a, Object b) { int r = 0; if (a == b) r |= 1; if (a != b) r |= 2; if (a == null) r |= 4; if (b != null) r |= 8; return r; }
    static int longs(long a, long b) { int r = 0; if (a == b) r |= 1; if (a != b) r |= 2; if (a < b) r |= 4; if (a >= b) r |= 8; if (a > b) r |= 16; if (a <= b) r |= 32; return r; }
    public static void main(String[] args) {
        int[] v = { Integer.MIN_VALUE, -1, 0, 1, Integer.MAX_VALUE };
        for (int a : v) { System.out.println(zero(a)); for (int b : v) System.out.print(bits(a, b)); System.out.println(); }
        long[] w = { Long.MIN_VALUE, -1, 0, Long.MAX_VALUE };
        for (long a : w) { for (long b : w) { System.out.print(longs(a, b)); System.out.print(' '); } System.out.println(); }
        Object o = new Object(), p = new Object();
        System.out.println(refs(o, o)); System.out.println(refs(o, p)); System.out.println(refs(null, p)); System.out.println(refs(o, null)); System.out.println(refs(null, null));
        System.out.println(Integer.MAX_VALUE > 0 ? "yes" : "no");
    }
}
