// Natives that copy arrays and objects, and what they throw.
public class Copies {
    static class Point implements Cloneable {
        int x;
        long wide;
        String name;
        Point next;

        Point(int x, String name) { this.x = x; this.wide = x * 4294967297L; this.name = name; }

        Point copy() {
            try { return (Point) clone(); } catch (CloneNotSupportedException e) { System.out.print("supported "); return null; }
        }
    }

    static class Deep extends Point {
        char more = 'm';

        Deep(int x) { super(x, "deep"); }
    }

    static class Plain {
        int x = 1;

        Object copy() {
            try { return clone(); } catch (CloneNotSupportedException e) { System.out.print("unsupported "); return null; }
        }
    }

    static void thrown(RuntimeException e) {
        System.out.print(e instanceof NullPointerException ? "null " : e instanceof ArrayStoreException ? "store "
                : e instanceof IndexOutOfBoundsException ? "index " : e instanceof IllegalArgumentException ? "argument " : "other ");
    }

    static void copy(Object from, int at, Object to, int place, int count) {
        try { System.arraycopy(from, at, to, place, count); System.out.print("copied "); } catch (RuntimeException e) { thrown(e); }
    }

    static void say(int[] numbers) {
        for (int i = 0; i < numbers.length; i++) { System.out.print(numbers[i]); System.out.print(' '); }
    }

    static void say(Object[] objects) {
        for (int i = 0; i < objects.length; i++) { System.out.print(String.valueOf(objects[i])); System.out.print(' '); }
    }

    static void chars(String text) {
        try { char[] units = text.toCharArray(); System.out.print(units.length); System.out.print(new String(units)); if (units.length > 0) { units[0] = 'X'; } System.out.print(text); System.out.print(' '); }
        catch (RuntimeException e) { thrown(e); }
    }

    static void add(Throwable to, Throwable other) {
        try { to.addSuppressed(other); System.out.print(to.getSuppressed().length); System.out.print(' '); } catch (RuntimeException e) { thrown(e); }
    }

    public static void main(String[] args) {
        int[] numbers = {0, 1, 2, 3, 4, 5, 6, 7, 8, 9};
        copy(numbers, 0, numbers, 3, 5); say(numbers); System.out.println();
        copy(numbers, 4, numbers, 1, 6); say(numbers); System.out.println();
        copy(numbers, 2, numbers, 2, 3); copy(numbers, 0, numbers, 0, 10); copy(numbers, 10, numbers, 0, 0); copy(numbers, 0, numbers, 10, 0); say(numbers); System.out.println();
        int[] other = new int[4];
        copy(numbers, 6, other, 0, 4); copy(numbers, 7, other, 0, 4); copy(numbers, 0, other, 1, 4); copy(numbers, -1, other, 0, 1); copy(numbers, 0, other, -1, 1); copy(numbers, 0, other, 0, -1); say(other); System.out.println();
        copy(numbers, 2147483647, other, 0, 2147483647); copy(numbers, 0, other, 2147483647, 2); copy(null, 0, other, 0, 1); copy(numbers, 0, null, 0, 1); copy(null, -1, null, -1, -1); copy("text", 0, other, 0, 1); copy(numbers, 0, "text", 0, 1); System.out.println();
        copy(numbers, 0, new long[4], 0, 1); copy(numbers, 0, new Object[4], 0, 1); copy(new Object[1], 0, numbers, 0, 1); copy(new byte[2], 0, new boolean[2], 0, 1); copy(new short[2], 0, new char[2], 0, 0); copy(numbers, -1, new long[1], 0, 1); System.out.println();
        long[] longs = {1L << 40, -1L, 3L};
        copy(longs, 0, longs, 1, 2); System.out.print(longs[1]); System.out.print(' '); System.out.println(longs[2]);
        byte[] bytes = {-1, 2, -128}; char[] units = {'a', '\uffff', 'c'}; boolean[] truths = {true, false, true}; short[] shorts = {-3, 4, 5};
        copy(bytes, 0, bytes, 1, 2); copy(units, 1, units, 0, 2); copy(truths, 1, truths, 0, 2); copy(shorts, 0, shorts, 2, 1);
        System.out.print(bytes[1]); System.out.print(bytes[2]); System.out.print((int) units[0]); System.out.print(units[1]); System.out.print(truths[0]); System.out.print(truths[1]); System.out.println(shorts[2]);

        Object[] mixed = {"one", null, "two", Integer.valueOf(3), "four"};
        String[] texts = new String[5];
        copy(mixed, 0, texts, 0, 3); say(texts); System.out.println();
        copy(mixed, 1, texts, 0, 4); say(texts); System.out.println();
        copy(mixed, 3, texts, 1, 2); copy(mixed, 3, texts, 4, 2); say(texts); System.out.println();
        Object[] objects = texts;
        copy(objects, 0, mixed, 2, 3); say(mixed); copy(mixed, 0, mixed, 1, 4); say(mixed); System.out.println();
        Object[][] grids = new Object[2][]; String[][] rows = {{"a"}, {"b"}};
        copy(rows, 0, grids, 0, 2); System.out.print(grids[1] == rows[1]); copy(grids, 0, rows, 1, 1); System.out.print(rows[1][0]); grids[0] = new Object[1]; copy(grids, 0, rows, 0, 1); copy(new Cloneable[] {numbers, null}, 0, objects, 0, 1); copy(new Object[] {numbers}, 0, new Cloneable[1], 0, 1); System.out.println();

        int[] twin = numbers.clone(); twin[0] = 77; System.out.print(numbers[0]); System.out.print(' '); System.out.print(twin[0]); System.out.print(' '); System.out.print(twin.length); System.out.print(' ');
        String[] same = texts.clone(); System.out.print(same[0] == texts[0]); System.out.print(same == texts); System.out.print(same instanceof String[]); System.out.print(new int[0].clone().length); String[][] rows2 = rows.clone(); System.out.println(rows2[0] == rows[0]);
        Point point = new Point(5, "p"); point.next = point;
        Point second = point.copy(); second.x = 6; System.out.print(point.x); System.out.print(second.x); System.out.print(second.wide); System.out.print(second.name == point.name); System.out.print(second.next == point); System.out.print(second == point); System.out.println(second.getClass() == point.getClass());
        Deep deep = (Deep) new Deep(9).copy(); System.out.print(deep.more); System.out.print(deep.x); System.out.print(deep.name); System.out.println(new Plain().copy() == null);
        try { int[] none = null; none.clone(); } catch (RuntimeException e) { thrown(e); }
        chars("word"); chars(""); chars("\ud83d\ude00"); chars(null); chars(new StringBuilder("built").append(1).toString()); System.out.println();

        Exception first = new Exception("first"), more = new RuntimeException("more");
        System.out.print(first.getSuppressed().length); add(first, more); add(first, more); add(first, new Error("third")); add(first, first); add(first, null); System.out.println();
        Throwable[] suppressed = first.getSuppressed();
        System.out.print(suppressed[0] == more); System.out.print(suppressed[2].getMessage()); suppressed[0] = null; System.out.print(first.getSuppressed()[0] == more); System.out.println(first.getSuppressed() == first.getSuppressed());
        for (int i = 0; i < 50; i++) { first.addSuppressed(new Exception(String.valueOf(i))); }
        System.out.print(first.getSuppressed().length); System.out.println(first.getSuppressed()[52].getMessage());
        try (Closes one = new Closes("one"); Closes two = new Closes("two")) {
            System.out.print("body ");
            throw new IllegalStateException("thrown");
        } catch (IllegalStateException e) {
            System.out.print(e.getMessage());
            for (Throwable each : e.getSuppressed()) { System.out.print(' '); System.out.print(each.getMessage()); }
            System.out.println();
        }
        try { one(); } catch (ArithmeticException e) { System.out.print(e.getSuppressed().length); add(e, new Exception()); System.out.println(); }
    }

    static int one() { int zero = 0; return 1 / zero; }

    static class Closes implements AutoCloseable {
        final String name;

        Closes(String name) { this.name = name; }

        public void close() { System.out.print("close "); throw new IllegalArgumentException(name); }
    }
}
