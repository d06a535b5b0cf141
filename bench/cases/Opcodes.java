/** Each instruction of ints, longs, arrays, fields and branches, with results that tell it from its neighbours. */
public class Opcodes {
    static int count;
    static long wide;
    static byte small;
    static char unit;
    static short shorter;
    static boolean truth;
    int number;
    long large;
    byte[] bytes = {1, -2, 3};
    Opcodes next;

    static void ints(int a, int b) {
        System.out.println(a + b);
        System.out.println(a - b);
        System.out.println(a * b);
        System.out.println(a / b);
        System.out.println(a % b);
        System.out.println(-a);
        System.out.println(a << b);
        System.out.println(a >> b);
        System.out.println(a >>> b);
        System.out.println(a & b);
        System.out.println(a | b);
        System.out.println(a ^ b);
        System.out.println((byte) a);
        System.out.println((char) (a & 0x7f | 0x20));
        System.out.println((int) (char) a);
        System.out.println((short) a);
        System.out.println((long) a);
    }

    static void longs(long a, long b, int by) {
        System.out.println(a + b);
        System.out.println(a - b);
        System.out.println(a * b);
        System.out.println(a / b);
        System.out.println(a % b);
        System.out.println(-a);
        System.out.println(a << by);
        System.out.println(a >> by);
        System.out.println(a >>> by);
        System.out.println(a & b);
        System.out.println(a | b);
        System.out.println(a ^ b);
        System.out.println((int) a);
        System.out.println(a < b);
        System.out.println(a > b);
        System.out.println(a == b);
    }

    static int branches(int a, int b, Object one, Object other) {
        int told = 0;
        told = told << 1 | (a == b ? 1 : 0);
        told = told << 1 | (a != b ? 1 : 0);
        told = told << 1 | (a < b ? 1 : 0);
        told = told << 1 | (a >= b ? 1 : 0);
        told = told << 1 | (a > b ? 1 : 0);
        told = told << 1 | (a <= b ? 1 : 0);
        told = told << 1 | (a == 0 ? 1 : 0);
        told = told << 1 | (a != 0 ? 1 : 0);
        told = told << 1 | (a < 0 ? 1 : 0);
        told = told << 1 | (a >= 0 ? 1 : 0);
        told = told << 1 | (a > 0 ? 1 : 0);
        told = told << 1 | (a <= 0 ? 1 : 0);
        told = told << 1 | (one == other ? 1 : 0);
        told = told << 1 | (one != other ? 1 : 0);
        told = told << 1 | (one == null ? 1 : 0);
        told = told << 1 | (one != null ? 1 : 0);
        return told;
    }

    static int tables(int key) {
        switch (key) {
            case 3:
                return 30;
            case 4:
                return 40;
            case 6:
                return 60;
            default:
                return -1;
        }
    }

    static int pairs(int key) {
        switch (key) {
            case -1000000:
                return 1;
            case 7:
                return 2;
            case 2147483647:
                return 3;
            default:
                return 4;
        }
    }

    static long arrays() {
        boolean[] truths = new boolean[3];
        byte[] bytes = new byte[3];
        char[] units = new char[3];
        short[] shorts = new short[3];
        int[] ints = new int[3];
        long[] longs = new long[3];
        Object[] objects = new Object[3];
        truths[1] = true;
        bytes[1] = (byte) 200;
        units[1] = (char) 70000;
        shorts[1] = (short) 40000;
        ints[1] = 1 << 31;
        longs[1] = 1L << 40;
        objects[1] = ints;
        ints[2]++;
        longs[2] += 5;
        bytes[2] += 3;
        int[] same = (int[]) objects[1];
        System.out.println(truths[1]);
        System.out.println(truths[0]);
        System.out.println(bytes[1]);
        System.out.println((int) units[1]);
        System.out.println(shorts[1]);
        System.out.println(same[1]);
        System.out.println(objects[0] == null);
        return longs[1] + longs[2] + bytes[2] + ints[2] + same.length;
    }

    long fields() {
        number = 3;
        large = 4;
        number++;
        large += number++ + ++number;
        bytes[1] -= bytes[2]--;
        next = new Opcodes();
        next.number += number;
        next.next = this;
        count++;
        wide -= count-- * 10L;
        small = (byte) 300;
        unit = (char) -1;
        shorter = (short) 70000;
        truth = !truth;
        long sum = next.next.large + next.number + bytes[1] + bytes[2] + count + wide + small + unit + shorter;
        return truth ? sum : -sum;
    }

    static int wideLocals(int first) {
        long a = first, b = a + 1, c = b + 1, d = c + 1;
        int e = (int) (a + b + c + d);
        e += 1000;
        e -= 40000;
        return e;
    }

    public static void main(String[] arguments) {
        ints(-2147483648, -1);
        ints(1234567, 37);
        ints(-7, 3);
        longs(-9223372036854775808L, -1, 65);
        longs(123456789012345L, -37, 70);
        Object one = new Object();
        System.out.println(branches(1, 2, one, one));
        System.out.println(branches(2, 2, one, null));
        System.out.println(branches(-3, -4, null, null));
        System.out.println(branches(0, 5, null, one));
        for (int i = 2; i < 8; i++) {
            System.out.println(tables(i));
        }
        System.out.println(pairs(-1000000));
        System.out.println(pairs(7));
        System.out.println(pairs(2147483647));
        System.out.println(pairs(8));
        System.out.println(arrays());
        System.out.println(new Opcodes().fields());
        System.out.println(wideLocals(100));
        System.out.print("text, ");
        System.out.println((String) null);
        System.out.println(one instanceof Opcodes);
        System.out.println("same" == "same");
    }
}
