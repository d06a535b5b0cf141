public class IntArithmetic {
    static int min = Integer.MIN_VALUE, max = Integer.MAX_VALUE;
    static void all(int a, int b) {
        System.out.println(a + b); System.out.println(a - b); System.out.println(a * b);
        System.out.println(a & b); System.out.println(a | b); System.out.println(a ^ b);
        System.out.println(a << b); System.out.println(a >> b); System.out.println(a >>> b); System.out.println(-a);
        try { System.out.println(a / b); System.out.println(a % b); } catch (ArithmeticException e) { System.out.println(e.getMessage()); }
    }
    public static void main(String[] args) {
        all(min, -1); all(max, 1); all(7, 3); all(-7, 3); all(7, -3); all(-7, -3); all(65536, 65536); all(1, 33); all(-5, 0); all(min, min); all(-1, 31);
        int i = 5; i += 1000; i -= 70000; i++; i += -128; i += 127; System.out.println(i); System.out.println(i++ + ++i);
        System.out.println(~i); System.out.println(1 << 31); System.out.println(-1 >>> -1);
        try { System.out.println(5 % (i - i)); } catch (ArithmeticException e) { System.out.println(e); }
    }
}
