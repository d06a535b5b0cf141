package pa;
public class PkC extends pb.PkB { public void f() { System.out.println("C"); super.f(); } }
