package pc;
public class PkE extends pb.PkB { public void f() { System.out.println("E"); super.f(); } }
