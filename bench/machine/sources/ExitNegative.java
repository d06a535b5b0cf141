public class ExitNegative { public static void main(String[] args) { for (int i = 0; ; i++) if (i * i > 50) System.exit(-i); } }
