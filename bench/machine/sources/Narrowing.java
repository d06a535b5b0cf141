public class Narrowing {
    static byte b; static short s; static char c; static boolean z; byte ib; short is; char ic; boolean iz;
    static byte toByte(int i) { return (byte) i; } static short toShort(int i) { return (short) i; } static char toChar(int i) { return (char) i; }
    public static void main(String[] args) {
        int[] tests = { 0, 1, -1, 127, 128, 129, 255, 256, 32767, 32768, 65535, 65536, -129, -32769, Integer.MIN_VALUE, Integer.MAX_VALUE };
        Narrowing n = new Narrowing(); byte[] bs = new byte[1]; short[] ss = new short[1]; char[] cs = new char[1];
        int sum = 0;
        for (int t : tests) {
            b = (byte) t; s = (short) t; c = (char) t; n.ib = (byte) t; n.is = (short) t; n.ic = (char) t;
            bs[0] = (byte) t; ss[0] = (short) t; cs[0] = (char) t;
            System.out.println(b); System.out.println(s); System.out.println((int) c);
            sum = sum * 31 + n.ib + n.is + n.ic + bs[0] + ss[0] + cs[0] + toByte(t) + toShort(t) + toChar(t);
        }
        System.out.println(sum);
        b += 300; s -= 40000; c *= 3; System.out.println(b); System.out.println(s); System.out.println((int) c);
        c--; c++; ++b; b >>>= 1; System.out.println(b); s >>= 3; System.out.println(s);
        z = !z; n.iz = z; System.out.println(z & n.iz); System.out.println(z ^ n.iz); System.out.println(z | false);
    }
}
