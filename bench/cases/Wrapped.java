/** An initialiser fails behind so much garbage as an argument says: the exception that is on its way is told of whatever is collected meanwhile. */
public class Wrapped {
    static final class Bad {
        static int value = failing();

        static int failing() {
            int[] garbage = new int[size];
            throw new IllegalStateException("behind " + garbage.length);
        }
    }

    static int size;

    public static void main(String[] args) {
        size = Integer.parseInt(args[0]);
        try {
            System.out.println(Bad.value);
        } catch (ExceptionInInitializerError it) {
            System.out.println(it.getCause().getMessage());
        }
    }
}
