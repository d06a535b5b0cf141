// message
public class UncaughtZero { public static void main(String[] args) { System.out.print("before"); int z = args.length; System.out.println(10L / z); } }
