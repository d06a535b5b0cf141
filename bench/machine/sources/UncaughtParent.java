public class UncaughtParent extends UpTop { static { System.out.println("never"); } public static void main(String[] args) { System.out.println("never"); } }
class UpTop { static int x; static { System.out.println("top"); if (x == 0) throw new UnsupportedOperationException("top"); } }
