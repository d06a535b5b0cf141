public class UncaughtNull { String s; public static void main(String[] args) { UncaughtNull u = args.length == 0 ? null : new UncaughtNull(); System.out.println(u.s); } }
