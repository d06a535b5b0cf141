// Primes by a sieve over a boolean array.
class Sieve {
    static int primes(int limit) {
        boolean[] composite = new boolean[limit];
        int count = 0;
        for (int i = 2; i < limit; i++) {
            if (composite[i]) {
                continue;
            }
            count++;
            for (int j = i + i; j < limit; j += i) {
                composite[j] = true;
            }
        }
        return count;
    }

    public static void main(String[] args) {
        for (int round = 0; round < 4; round++) {
            System.out.println(primes(1000000));
        }
    }
}
