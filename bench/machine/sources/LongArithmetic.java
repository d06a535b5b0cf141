public class LongArithmetic {
    static void all(long a, long b, int s) {
        System.out.println(a + b); System.out.println(a - b); System.out.println(a * b);
        System.out.println(a & b); System.out.println(a | b); System.out.println(a ^ b);
        System.out.println(a << s); System.out.println(a >> s); System.out.println(a >>> s); System.out.println(-a);
        System.out.println(a < b); System.out.println(a == b); System.out.println(a > b);
        try { System.out.println(a / b); System.out.println(a % b); } catch (ArithmeticException e) { System.out.println(e.getMessage()); }
    }
    public static void main(String[] args) {
        long min = Long.MIN_VALUE, max = Long.MAX_VALUE;
        all(min, -1L, 63); all(max, 1L, 65); all(-7L, 3L, 1); all(7L, -3L, -1); all(0x123456789ABCDEFL, 0xFEDCBA987654321L, 32); all(-5L, 0L, 0); all(1L << 40, 1L << 40, 40); all(0L, 1L, 64);
        int i = (int) (max - 4); long l = i; System.out.println(i); System.out.println(l);
        System.out.println((int) min); System.out.println((long) Integer.MIN_VALUE); System.out.println((short) 0x12348765L); System.out.println((byte) 255L);
        try { System.out.println(5L % (l - l)); } catch (ArithmeticException e) { System.out.println(e); }
        long c = 0; for (long k = 1; k <= 20; k++) { c = c * 31 + k; } System.out.println(c);
    }
}
