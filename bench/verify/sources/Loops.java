/** Loops, ints and longs in local variables, and arrays of numbers. */
class Loops {
    static int primes(int most) {
        boolean[] crossed = new boolean[most + 1];
        int count = 0;
        for (int i = 2; i <= most; i++) {
            if (crossed[i]) {
                continue;
            }
            count++;
            for (long j = (long) i * i; j <= most; j += i) {
                crossed[(int) j] = true;
            }
        }
        return count;
    }

    static long power(long base, int exponent) {
        long result = 1;
        while (exponent > 0) {
            if ((exponent & 1) != 0) {
                result *= base;
            }
            base *= base;
            exponent >>>= 1;
        }
        return result;
    }

    static int search(int[] sorted, int wanted) {
        int low = 0;
        int high = sorted.length - 1;
        do {
            int middle = (low + high) >>> 1;
            if (sorted[middle] == wanted) {
                return middle;
            } else if (sorted[middle] < wanted) {
                low = middle + 1;
            } else {
                high = middle - 1;
            }
        } while (low <= high);
        return ~low;
    }

    static int labels(int[][] table) {
        int sum = 0;
        outer:
        for (int[] row : table) {
            for (int cell : row) {
                if (cell < 0) {
                    continue outer;
                }
                if (cell == 99) {
                    break outer;
                }
                sum += cell;
            }
            sum *= 2;
        }
        return sum;
    }

    static long mixed(byte a, char b, short c, int d, long e) {
        byte[] bytes = {a, (byte) b, (byte) d};
        char[] chars = {b, (char) c};
        short[] shorts = {c, (short) e};
        long[] longs = {e, a, d};
        long sum = e << a | c >> 2 ^ d >>> 3;
        for (int i = 0; i < 2; i++) {
            sum += bytes[i] * longs[i] - chars[i] % (shorts[i] == 0 ? 1 : shorts[i]);
            bytes[i] += 3;
            longs[i]++;
            chars[i]--;
        }
        return e > sum ? -sum : sum == e ? ~sum : sum / 3;
    }

    public static void main(String[] words) {
        System.out.println(primes(100) + power(3, 5) + search(new int[] {1, 4, 9, 16}, 9));
        System.out.println(labels(new int[][] {{1, 2}, {-1}, {99}}) + mixed((byte) 1, 'b', (short) 3, 4, 5L));
    }
}
