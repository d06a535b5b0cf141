package pb;
public class PkD extends pa.PkC { public void f() { System.out.println("D"); super.f(); } }
