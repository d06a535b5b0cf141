// ends: exited 0
public class ExitZero { static class A { static { System.out.println("A"); System.exit(0); } static int x; } public static void main(String[] args) { System.out.println(A.x); } }
