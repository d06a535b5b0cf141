/** Makes garbage in a small heap, and asks for a collection. An identity hash stays what it was. */
public class Collects {
    public static void main(String[] args) {
        Object first = new Object();
        System.out.println(System.identityHashCode(first));
        System.gc();
        System.out.println(System.identityHashCode(first));
        int sum = 0;
        for (int i = 0; i < 1000; i++) {
            int[] numbers = new int[100];
            numbers[i % 100] = i;
            sum += numbers[i % 100];
        }
        System.out.println(sum);
        int[][] kept = new int[3][];
        for (int i = 0; i < 300; i++) {
            kept[i % 3] = new int[60];
            kept[i % 3][59] = i;
        }
        System.out.println(kept[0][59] + " " + kept[1][59] + " " + kept[2][59]);
        System.out.println(System.identityHashCode(first));
    }
}
