/** Asks for more than any heap holds: 512 arrays of as many ints as an array may have take 2^40 words. */
public class Full {
    public static void main(String[] arguments) {
        System.out.print(new int[512][Integer.MAX_VALUE].length);
    }
}
