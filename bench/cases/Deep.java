public class Deep {
    static int depth;

    static void deeper() {
        depth++;
        deeper();
    }

    public static void main(String[] arguments) {
        try {
            deeper();
        } catch (StackOverflowError error) {
            System.out.println("deep");
        }
        if (arguments.length > 0) {
            System.out.println(depth);
        }
    }
}
