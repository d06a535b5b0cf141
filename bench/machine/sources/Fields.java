public class Fields {
    static class A { int i = 1; long l = 2; byte b = 3; char c = 'd'; short s = 5; boolean z = true; String t = "A"; Object n; int hidden = 10; static int shared = 100; }
    static class B extends A { int j = 7; int hidden = 20; long m = -1; B next; static int shared = 200; int both() { return hidden + super.hidden + ((A) this).hidden; } }
    interface K { int ONE = 1; String TEXT = "k"; int[] ARRAY = { 4, 5 }; }
    static class C extends B implements K { int get() { return ONE + ARRAY[1] + shared; } }
    static long sl = 1L << 40; static Object so = "so"; static boolean sz;
    public static void main(String[] args) {
        C c = new C(); c.next = new B(); c.next.next = c; c.next.i += 41; c.l *= sl; c.b--; c.c++; c.s += c.b; c.z &= sz; c.t += c.c; c.n = c;
        System.out.println(c.next.next == c.n); System.out.println(c.next.i); System.out.println(c.l); System.out.println(c.b); System.out.println(c.c); System.out.println(c.s); System.out.println(c.z); System.out.println(c.t);
        System.out.println(c.both()); System.out.println(c.hidden); System.out.println(((A) c).hidden); System.out.println(c.get()); System.out.println(C.shared + A.shared); System.out.println(K.TEXT); System.out.println(so);
        A a = null; long before = c.m;
        try { System.out.println(a.i); } catch (NullPointerException e) { System.out.println("get"); }
        try { a.l = 3; } catch (NullPointerException e) { System.out.println("put"); }
        try { a.n = c; } catch (NullPointerException e) { System.out.println("put reference"); }
        System.out.println(before); System.out.println(a.shared); sl++; sz = true; System.out.println(sl); System.out.println(sz);
    }
}
