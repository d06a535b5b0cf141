/** Initialisers, static and of objects, asserts, and conditions. */
class Statics {
    static final long BIG = System.out == null ? 1L << 40 : 3;
    static final String[] NAMES;
    static int counter = next();
    static Object lock;
    private int own = counter++;
    private long wide;
    private boolean flag;

    static {
        NAMES = new String[4];
        int i = 0;
        try {
            for (; ; i++) {
                NAMES[i] = i % 2 == 0 ? "even" : "odd";
            }
        } catch (ArrayIndexOutOfBoundsException end) {
            counter = i;
        }
    }

    {
        wide = own > 2 ? BIG : own;
        flag = wide != 0 ^ own == 1;
    }

    Statics() {
    }

    Statics(int own) {
        this.own += own;
        this.wide *= this.own--;
        assert own >= 0 : "negative";
    }

    private static int next() {
        return lock == null ? 1 : lock.hashCode();
    }

    static boolean conditions(Object a, Object b, int c, long d) {
        return a == b || a != null && !a.equals(b) && (c > 3 ? d <= c : d != -c) || (lock == null) == (c < 0);
    }

    int same(Statics other) {
        if (this == other) {
            return 0;
        }
        Class<?> type = other == null ? Statics.class : int[].class;
        String name = type.getName();
        return flag ? name.length() : (int) (wide >> 3) + (flag ? 1 : own) - (byte) own + (char) own;
    }

    static int stack(int[] numbers, long[] longs, Statics object) {
        int old = numbers[0]++;
        long was = longs[1] += old;
        int both = object.own = old + 2;
        long high = object.wide = was++;
        return numbers[1] = both + (int) (object.wide++ + longs[0]--) + (int) high + (object.own -= 2);
    }

    public static void main(String[] words) {
        System.out.println(conditions(words, null, 3, 4L));
        System.out.println(new Statics(4).same(new Statics()) + stack(new int[2], new long[2], new Statics()) + NAMES[1]);
    }
}
