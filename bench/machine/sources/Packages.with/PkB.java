package pb;
public class PkB extends pa.PkA { public void f() { System.out.println("B"); } }
