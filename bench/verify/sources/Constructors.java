/** Constructors that call others, and objects that wait across branches for theirs. */
class Constructors {
    static class Pair {
        final Object left;
        final long right;
        private static int made;

        Pair(Object left, long right) {
            this.left = left;
            this.right = right;
            made++;
        }

        Pair(boolean which, Object one, Object other) {
            this(which ? one : other, which ? 1L : 2L);
        }

        Pair() {
            this(made > 2, "many", null);
        }
    }

    static class Triple extends Pair {
        final int[] third;

        Triple(int size) {
            super(size > 3 ? new Triple(size / 2) : "small", size < 0 ? -size : (long) size);
            int[] some = new int[size & 7];
            for (int i = 0; i < some.length; i++) {
                some[i] = i;
            }
            third = some;
        }

        Triple(Pair pair, int... rest) {
            super(pair.left, pair.right);
            third = rest.length == 0 ? null : rest;
        }
    }

    static class Inner {
        private final int depth;
        private Inner next;

        private Inner(int depth) {
            this.depth = depth;
        }

        class Deeper {
            final int own = depth + 1;

            int sum() {
                return own + depth + (next == null ? 0 : next.new Deeper().sum());
            }
        }
    }

    static Pair make(int number, String text) {
        return new Pair(number > 0 ? text : number == 0 ? new Pair() : new int[] {number}, number > 5 ? 5 : number);
    }

    static Pair looping(int count) {
        Pair pair = null;
        for (int i = 0; i < count; i++) {
            pair = new Pair(pair != null && i % 2 == 0 ? new Triple(pair, i, i + 1) : pair, pair == null ? 0 : pair.right);
        }
        return pair;
    }

    static String deep(boolean a, boolean b) {
        return new StringBuilder(a ? new String(b ? new char[] {'x'} : new char[0]) : b ? "b" : "c").append(a && b || !a).toString();
    }

    public static void main(String[] words) {
        Inner inner = new Inner(3);
        inner.next = new Inner(4);
        System.out.println(make(1, "t").right + looping(4).right + inner.new Deeper().sum());
        System.out.println(deep(true, false));
    }
}
