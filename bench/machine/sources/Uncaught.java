// message
public class Uncaught {
    static class Own extends RuntimeException { Own(String s) { super(s); } }
    static void f(int n) { try { if (n == 0) throw new Own("not caught"); f(n - 1); } finally { System.out.println(n); } }
    public static void main(String[] args) { try { f(5); } catch (IllegalStateException e) { System.out.println("no"); } finally { System.out.println("last"); } System.out.println("not here"); }
}
