package pa;
public class PkA { void f() { System.out.println("A"); } public void g() { f(); } public static void call(PkA a) { a.f(); } protected int n = 3; }
