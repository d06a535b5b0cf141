// message
public class UncaughtPlain { static class Quiet extends Exception {} public static void main(String[] args) throws Exception { System.out.println("q"); throw new Quiet(); } }
