// frames: 40
public class OverflowInInitializer {
    static class A { static int x = deep(1); static int deep(int n) { return deep(n + 1); } } static class B { static int y; static { try { deep(1); } catch (StackOverflowError e) { y = 5; } } static int deep(int n) { return deep(n + 1); } }
    public static void main(String[] args) { try { System.out.println(A.x); } catch (StackOverflowError e) { System.out.println("overflow"); } try { System.out.println(A.x); } catch (NoClassDefFoundError e) { System.out.println("failed"); } System.out.println(B.y); }
}
