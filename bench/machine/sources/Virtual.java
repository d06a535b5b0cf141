public class Virtual {
    static abstract class Shape { abstract int area(); int twice() { return 2 * area(); } String name() { return "shape"; } private int secret() { return 1; } int open() { return secret(); } }
    static class Square extends Shape { int n; Square(int n) { this.n = n; } int area() { return n * n; } String name() { return "square of " + super.name(); } private int secret() { return 2; } }
    static class Big extends Square { Big(int n) { super(n + 100); } int area() { return super.area() + 1; } int twice() { return -super.twice(); } }
    static class Flat extends Shape { int area() { return 0; } long many(int a, long b, char c, Object o, boolean z) { return a + b + c + (o == null ? 1 : 0) + (z ? 1 : 0); } }
    static class Calls { Calls() { System.out.println(say()); } String say() { return "calls"; } }
    static class Late extends Calls { String s = "late"; int i = 5; String say() { return s + i; } }
    public static void main(String[] args) {
        Shape[] all = { new Square(3), new Big(4), new Flat() };
        for (Shape s : all) { System.out.println(s.area()); System.out.println(s.twice()); System.out.println(s.name()); System.out.println(s.open()); }
        System.out.println(((Flat) all[2]).many(1, 2L, '3', null, true)); System.out.println(new Late().say());
        Shape none = null; try { none.area(); } catch (NullPointerException e) { System.out.println("null"); } try { ((Flat) none).many(1, 2, '3', "", false); } catch (NullPointerException e) { System.out.println("null too"); }
        System.out.println(all[0].equals(all[0])); System.out.println(all[0].hashCode() == all[0].hashCode()); System.out.println(all.equals(all)); System.out.println(all.getClass() == Shape[].class); System.out.println(all[1].getClass() == Big.class); System.out.println(all[1].getClass().getName());
    }
}
