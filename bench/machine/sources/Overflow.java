// frames: 40
public class Overflow {
    static int depth, undone; static int down(int n) { depth = n; try { return 1 + down(n + 1); } finally { undone++; } }
    static class Node { Node next; int len() { return 1 + next.len(); } }
    static long wide(long a, long b, long c, long d, long e, long f, long g, long h) { return wide(b, c, d, e, f, g, h, a + 1); }
    interface I { void run(); } static class Loop implements I { I i = this; public void run() { i.run(); } }
    public static void main(String[] args) {
        try { down(0); } catch (StackOverflowError e) { System.out.println("caught"); System.out.println(e.getMessage()); } System.out.println(depth > 5); System.out.println(undone > 5);
        Node n = new Node(); n.next = n; try { n.len(); } catch (StackOverflowError e) { System.out.println("caught"); }
        try { wide(1, 2, 3, 4, 5, 6, 7, 8); } catch (Error e) { System.out.println(e); } try { new Loop().run(); } catch (VirtualMachineError e) { System.out.println(e.getClass().getName()); }
        System.out.println("on");
    }
}
