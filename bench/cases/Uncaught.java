/** An exception that no handler takes, from a nested call. */
public class Uncaught {
    static void inner(int number) {
        if (number > 2) {
            throw new RuntimeException("x");
        }
        inner(number + 1);
    }

    public static void main(String[] arguments) {
        System.out.println(1);
        inner(0);
        System.out.println(2);
    }
}
