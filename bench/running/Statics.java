// Static fields, of classes that are initialised as they are first used.
class Statics {
    static class First {
        static int count = 3;
        static long sum;
    }

    static class Second {
        static final int[] TABLE = new int[256];

        static {
            for (int i = 0; i < TABLE.length; i++) {
                TABLE[i] = i * First.count;
            }
        }
    }

    public static void main(String[] args) {
        for (int i = 0; i < 5000000; i++) {
            First.count += Second.TABLE[i & 255];
            First.sum += First.count;
        }
        System.out.println(First.count);
        System.out.println(First.sum);
    }
}
