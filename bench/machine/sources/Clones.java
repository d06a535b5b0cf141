public class Clones implements Cloneable {
    int i = 3; long l = 1L << 35; String s = "s"; int[] a = { 1, 2 }; Clones self = this;
    static class Not { Object copy() throws CloneNotSupportedException { return clone(); } }
    static class Sub extends Clones { char c = 'c'; }
    Clones copy() { try { return (Clones) super.clone(); } catch (CloneNotSupportedException e) { return null; } }
    public static void main(String[] args) {
        Clones c = new Clones(), d = c.copy(); System.out.println(c == d); System.out.println(d.s == c.s); System.out.println(d.a == c.a); System.out.println(d.self == c); d.i++; d.a[0] = 9; System.out.println(c.i); System.out.println(c.a[0]); System.out.println(d.l);
        Clones e = new Sub().copy(); System.out.println(e.getClass().getName()); System.out.println(((Sub) e).c); try { new Not().copy(); } catch (CloneNotSupportedException x) { System.out.println("not"); }
        int[] a = { 1, 2, 3 }, b = a.clone(); b[0] = 5; System.out.println(a[0]); System.out.println(b.length); System.out.println(b.getClass() == a.getClass()); String[][] m = { { "x" }, null }, n = m.clone(); System.out.println(n[0] == m[0]); n[0] = null; System.out.println(m[0][0]); System.out.println(n[1] == null); long[] k = { 7L }; System.out.println(k.clone()[0]); boolean[] z = { true }; System.out.println(z.clone()[0]); System.out.println(new char[0].clone().length); byte[] y = { -1 }; short[] h = { -2 }; System.out.println(y.clone()[0] + h.clone()[0]);
        int[] none = null; try { none.clone(); } catch (NullPointerException x) { System.out.println("null"); } Clones nil = null; try { nil.copy(); } catch (NullPointerException x) { System.out.println("null"); }
    }
}
