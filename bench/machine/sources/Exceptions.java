public class Exceptions {
    static class Mine extends Exception { int code; Mine(String m, int code) { super(m); this.code = code; } }
    static class Other extends Mine { Other() { super("other", 9); } }
    static int f(int i) throws Mine { try { if (i == 1) throw new Mine("one", 1); if (i == 2) throw new Other(); if (i == 3) throw new RuntimeException("three"); if (i == 4) return 4; System.out.println("end of try"); }
        catch (Other e) { System.out.println("other " + e.code); return 20; } catch (Mine e) { System.out.println("mine " + e.getMessage()); if (e.code == 1) throw new Mine("again", 11); }
        finally { System.out.println("finally " + i); if (i == 5) return 50; } return -1; }
    static int g() { int x = 1; try { return x; } finally { x = 2; } }
    static int h() { for (int i = 0; ; i++) { try { if (i < 3) continue; if (i == 5) break; } finally { System.out.print(i); } } System.out.println(); return 7; }
    static void nested() { try { try { throw new IllegalStateException("inner"); } finally { throw new RuntimeException("from finally"); } } catch (RuntimeException e) { System.out.println(e.getMessage()); } }
    static void deep(int n) { if (n == 0) throw new IllegalArgumentException("deep"); try { deep(n - 1); } finally { System.out.print(n); } }
    public static void main(String[] args) {
        for (int i = 0; i < 6; i++) try { System.out.println(f(i)); } catch (Mine e) { System.out.println(e.code + e.getMessage()); } catch (RuntimeException e) { System.out.println(e); }
        System.out.println(g()); System.out.println(h()); nested();
        try { deep(4); } catch (IllegalArgumentException e) { System.out.println(e.getMessage()); }
        try { throw null; } catch (NullPointerException e) { System.out.println("null"); }
        Throwable t = new Exception("m", new Error("cause")); System.out.println(t); System.out.println(t.getCause()); System.out.println(t.getCause().getMessage()); System.out.println(new Exception(t).getMessage()); System.out.println(new RuntimeException((Throwable) null).getMessage()); System.out.println(new Error()); System.out.println(new Error().getCause() == null);
        try { try { throw new Mine("x", 3); } catch (Mine | RuntimeException e) { throw e; } } catch (Exception e) { System.out.println(e.getClass().getName()); }
    }
}
