public class Interfaces {
    interface A { default String who() { return "A"; } int count(); default int twice() { return 2 * count(); } static String stat() { return "static A"; } }
    interface B extends A { default String who() { return "B>" + A.super.who(); } }
    interface C { default String who() { return "C"; } }
    static class One implements A { public int count() { return 1; } }
    static class Two extends One implements B { public int count() { return super.count() + 1; } }
    static class Three implements B, C { public String who() { return B.super.who() + C.super.who(); } public int count() { return 3; } public int twice() { return B.super.twice() * 10; } }
    static class Four extends Three implements Comparable<Four> { public int compareTo(Four f) { return 4; } }
    interface Wide { long f(long a, int b, long c); }
    static class W implements Wide { public long f(long a, int b, long c) { return a * b + c; } }
    public static void main(String[] args) {
        A[] all = { new One(), new Two(), new Three(), new Four() };
        for (A a : all) { System.out.println(a.who()); System.out.println(a.count()); System.out.println(a.twice()); System.out.println(a instanceof B); System.out.println(a instanceof C); }
        System.out.println(A.stat()); Comparable<Four> c = new Four(); System.out.println(c.compareTo(new Four())); Wide w = new W(); System.out.println(w.f(1L << 33, 3, -1));
        A none = null; try { none.count(); } catch (NullPointerException e) { System.out.println("null"); }
        System.out.println(all[0].equals(all[1])); System.out.println(all[0].hashCode() == all[0].hashCode()); System.out.println(all[1].getClass().getName());
        CharSequence s = "seq"; System.out.println(s.length()); System.out.println(s.charAt(1)); System.out.println(s.toString()); s = new StringBuilder("build"); System.out.println(s.length()); System.out.println(s.charAt(4)); System.out.println(s.toString());
    }
}
