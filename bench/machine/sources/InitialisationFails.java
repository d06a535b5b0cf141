public class InitialisationFails {
    static int turns; static int fail(String s) { turns++; throw new IllegalStateException(s); }
    static class A { static int x = fail("A"); static int y = 5; static void f() {} } static class B extends A { static { System.out.println("B never"); } }
    static class C { static { if (turns > 0) throw new AssertionError("C"); } static int c; } static class D { static int d = 1; static { A.f(); } } interface I { int i = fail("I"); default void m() {} } static class K implements I {}
    static class Ok { static int v; static { try { fail("inside"); } catch (IllegalStateException e) { v = 3; } } }
    static void name(Throwable t) { System.out.println(t.getClass().getName()); }
    public static void main(String[] args) {
        try { System.out.println(A.x); } catch (ExceptionInInitializerError e) { name(e); System.out.println(e.getCause() == null ? "none" : e.getCause().getMessage()); System.out.println(e.getMessage()); }
        try { System.out.println(A.y); } catch (NoClassDefFoundError e) { name(e); } try { A.y = 3; } catch (NoClassDefFoundError e) { name(e); } try { new A(); } catch (NoClassDefFoundError e) { name(e); } try { A.f(); } catch (LinkageError e) { name(e); }
        try { new B(); } catch (Error e) { name(e); } try { new B(); } catch (Error e) { name(e); }
        try { C.c = 1; } catch (AssertionError e) { name(e); System.out.println(e.getMessage()); } try { C.c = 1; } catch (NoClassDefFoundError e) { name(e); }
        try { System.out.println(D.d); } catch (NoClassDefFoundError e) { name(e); } try { System.out.println(D.d); } catch (NoClassDefFoundError e) { name(e); }
        try { new K(); } catch (ExceptionInInitializerError e) { name(e); } try { new K(); } catch (NoClassDefFoundError e) { name(e); } try { System.out.println(K.i); } catch (NoClassDefFoundError e) { name(e); }
        System.out.println(Ok.v); System.out.println(turns);
    }
}
