/**
 * Prints for each call of the crate `cb_arith` the sum of the results that a JVM gives over all pairs of the numbers below, and
 * over seeded pairs. The tests of the crate have the same sums.
 *
 * To run it: `java bench/arith/Arith.java`
 */
public final class Arith {
    static final int[] INTS = {
        0, 1, -1, 2, -2, 5, -5, 7, -7, 31, 32, 33, 63, 64, 65, 127, 128, -128, -129, 255, 256, 32767, 32768, -32768,
        -32769, 65535, 65536, 65537, 2147483646, 2147483647, -2147483647, -2147483648,
    };
    static final long[] LONGS = {
        0, 1, -1, 2, -2, 7, -7, 63, 64, 65, 65536, -65537, 2147483647L, 2147483648L, -2147483648L, -2147483649L, 4294967295L,
        4294967296L, 4294967297L, -4294967296L, 3037000500L, -3037000500L, 9223372036854775806L, 9223372036854775807L,
        -9223372036854775807L, -9223372036854775808L,
    };
    static final String[] INT_OPS = {"Add", "Sub", "Mul", "Div", "Rem", "Shl", "Shr", "Ushr", "And", "Or", "Xor"};
    static final String[] LONG_OPS = {"Add", "Sub", "Mul", "Div", "Rem", "And", "Or", "Xor"};
    static final String[] SHIFTS = {"Shl", "Shr", "Ushr"};
    static final String[] TYPES = {"Byte", "Char", "Short"};
    static final int PAIRS = 4000;

    /** Stands for a division by zero. */
    static final long NOTHING = 0x5EED;

    static int ints(String op, int a, int b) {
        return switch (op) {
            case "Add" -> a + b;
            case "Sub" -> a - b;
            case "Mul" -> a * b;
            case "Div" -> a / b;
            case "Rem" -> a % b;
            case "Shl" -> a << b;
            case "Shr" -> a >> b;
            case "Ushr" -> a >>> b;
            case "And" -> a & b;
            case "Or" -> a | b;
            case "Xor" -> a ^ b;
            default -> throw new IllegalArgumentException(op);
        };
    }

    static long longs(String op, long a, long b) {
        return switch (op) {
            case "Add" -> a + b;
            case "Sub" -> a - b;
            case "Mul" -> a * b;
            case "Div" -> a / b;
            case "Rem" -> a % b;
            case "And" -> a & b;
            case "Or" -> a | b;
            case "Xor" -> a ^ b;
            default -> throw new IllegalArgumentException(op);
        };
    }

    static long shift(String op, long a, int by) {
        return switch (op) {
            case "Shl" -> a << by;
            case "Shr" -> a >> by;
            case "Ushr" -> a >>> by;
            default -> throw new IllegalArgumentException(op);
        };
    }

    static int narrow(String to, int a) {
        return switch (to) {
            case "Byte" -> (byte) a;
            case "Char" -> (char) a;
            case "Short" -> (short) a;
            default -> throw new IllegalArgumentException(to);
        };
    }

    /** What `lcmp` gives: `javac` writes each of the two tests as an `lcmp` with a branch behind it. */
    static int compare(long a, long b) {
        return a < b ? -1 : a > b ? 1 : 0;
    }

    static long intOrNothing(String op, int a, int b) {
        try {
            return ints(op, a, b);
        } catch (ArithmeticException zero) {
            return NOTHING;
        }
    }

    static long longOrNothing(String op, long a, long b) {
        try {
            return longs(op, a, b);
        } catch (ArithmeticException zero) {
            return NOTHING;
        }
    }

    interface Pair {
        long of(long a, long b);
    }

    static long more(long sum, long result) {
        return sum * 31 + result;
    }

    /** The next number of the generator (Knuth, MMIX). */
    static long next(long seed) {
        return seed * 6364136223846793005L + 1442695040888963407L;
    }

    /** A number of few or of many bits. */
    static long number(long seed) {
        return next(seed) >> (seed >>> 58);
    }

    /** What is left of it in 32 bits. */
    static int small(long seed) {
        return (int) (next(seed) >>> 32) >> (seed >>> 59);
    }

    static long seeded(boolean first, boolean second, Pair op) {
        long sum = 0;
        long seed = 1;
        for (int i = 0; i < PAIRS; i++) {
            long other = next(next(seed));
            sum = more(sum, op.of(first ? number(seed) : small(seed), second ? number(other) : small(other)));
            seed = next(next(other));
        }
        return sum;
    }

    static long listedInts(Pair op) {
        long sum = 0;
        for (int a : INTS) {
            for (int b : INTS) {
                sum = more(sum, op.of(a, b));
            }
        }
        return sum;
    }

    static long listedLongs(Pair op) {
        long sum = 0;
        for (long a : LONGS) {
            for (long b : LONGS) {
                sum = more(sum, op.of(a, b));
            }
        }
        return sum;
    }

    static long listedShifts(Pair op) {
        long sum = 0;
        for (long a : LONGS) {
            for (int b : INTS) {
                sum = more(sum, op.of(a, b));
            }
        }
        return sum;
    }

    static void sums(String name, long listed, long seeded) {
        System.out.println("sums " + name + " " + listed + " " + seeded);
    }

    public static void main(String[] words) {
        for (String op : INT_OPS) {
            Pair pair = (a, b) -> intOrNothing(op, (int) a, (int) b);
            sums("IntOp::" + op, listedInts(pair), seeded(false, false, pair));
        }
        for (String op : LONG_OPS) {
            Pair pair = (a, b) -> longOrNothing(op, a, b);
            sums("LongOp::" + op, listedLongs(pair), seeded(true, true, pair));
        }
        for (String op : SHIFTS) {
            Pair pair = (a, b) -> shift(op, a, (int) b);
            sums("ShiftOp::" + op, listedShifts(pair), seeded(true, false, pair));
        }
        for (String to : TYPES) {
            Pair pair = (a, b) -> narrow(to, (int) a);
            sums("Narrow::" + to, listedInts(pair), seeded(false, false, pair));
        }
        Pair order = (a, b) -> compare(a, b);
        sums("compare", listedLongs(order), seeded(true, true, order));
    }
}
