class Rounds {
    static int primes(int most) {
        int count = 0;
        next:
        for (int n = 2; n <= most; n++) {
            for (int d = 2; d * d <= n; d++) {
                if (n % d == 0) continue next;
            }
            count++;
        }
        return count;
    }
    static long collatz(long n) {
        long steps = 0;
        do {
            n = (n & 1) == 0 ? n >> 1 : 3 * n + 1;
            steps++;
        } while (n != 1L);
        return steps;
    }
    static int find(int[] numbers, int wanted) {
        int at = 0;
        while (at < numbers.length) {
            if (numbers[at] == wanted) break;
            at++;
        }
        return at < numbers.length ? at : -1;
    }
    public static void main(String[] args) {
        int sum = 0;
        for (String word : args) sum += word.length();
        System.out.println(primes(100) + sum);
        System.out.println(collatz(27L));
        System.out.println(find(new int[] { 4, 8, 15 }, 8));
        for (;;) {
            if (sum++ > 3) return;
        }
    }
}
