public class Args {
    public static void main(String[] arguments) {
        System.out.println(arguments.length);
        for (int i = 0; i < arguments.length; i++) {
            System.out.print('<');
            System.out.print(arguments[i]);
            System.out.println('>');
        }
    }
}
