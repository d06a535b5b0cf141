public class Divides {
    public static void main(String[] arguments) {
        System.out.print(1 / arguments.length);
    }
}
