public class UncaughtInitializer { static int z; static { System.out.println("first"); z = 1 / z; } public static void main(String[] args) { System.out.println("no"); } }
