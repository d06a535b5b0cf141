public class Negative {
    public static void main(String[] arguments) {
        System.out.print(new int[-1].length);
    }
}
