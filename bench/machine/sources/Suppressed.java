public class Suppressed {
    static class Res implements AutoCloseable { String n; boolean fails; Res(String n, boolean fails) { this.n = n; this.fails = fails; System.out.println("open " + n); } public void close() { System.out.println("close " + n); if (fails) throw new IllegalStateException("close " + n); } }
    static void use(boolean a, boolean b, boolean body) { try (Res one = new Res("one", a); Res two = new Res("two", b); Res none = null) { System.out.println("body"); if (body) throw new RuntimeException("body"); } catch (RuntimeException e) { show(e, 0); } finally { System.out.println("--"); } }
    static void show(Throwable t, int depth) { System.out.println(depth + " " + t.getMessage() + " " + t.getSuppressed().length); for (Throwable s : t.getSuppressed()) show(s, depth + 1); }
    public static void main(String[] args) {
        use(false, false, false); use(true, false, false); use(true, true, false); use(true, true, true); use(false, true, true); use(false, false, true);
        Exception e = new Exception("e"); Throwable[] none = e.getSuppressed(); System.out.println(none.length);
        try { e.addSuppressed(e); } catch (IllegalArgumentException x) { System.out.println("self"); } try { e.addSuppressed(null); } catch (NullPointerException x) { System.out.println("null"); }
        e.addSuppressed(new Error("1")); e.addSuppressed(new Error("2")); Throwable[] two = e.getSuppressed(); two[0] = null; System.out.println(two.length); System.out.println(e.getSuppressed()[0].getMessage()); System.out.println(e.getSuppressed()[1].getMessage()); System.out.println(two.getClass().getName());
        Exception no = null; try { no.addSuppressed(e); } catch (NullPointerException x) { System.out.println("receiver"); } try { no.getSuppressed(); } catch (NullPointerException x) { System.out.println("receiver"); }
    }
}
