/** Numbers of Fibonacci, by calls and by a loop. */
public class Fibonacci {
    static int byCalls(int n) {
        return n < 2 ? n : byCalls(n - 1) + byCalls(n - 2);
    }

    static long byLoop(int n) {
        long one = 0;
        long next = 1;
        for (int i = 0; i < n; i++) {
            long sum = one + next;
            one = next;
            next = sum;
        }
        return one;
    }

    public static void main(String[] arguments) {
        System.out.println(byCalls(20));
        System.out.println(byLoop(90));
    }
}
