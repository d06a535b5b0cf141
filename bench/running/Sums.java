// Loops over ints and longs.
class Sums {
    static int ints(int rounds) {
        int sum = 0;
        for (int i = 0; i < rounds; i++) {
            sum = sum * 31 + (i ^ sum >>> 7);
        }
        return sum;
    }

    static long longs(int rounds) {
        long sum = 1;
        for (int i = 0; i < rounds; i++) {
            sum = sum * 6364136223846793005L + i;
            sum ^= sum >>> 29;
        }
        return sum;
    }

    public static void main(String[] args) {
        System.out.println(ints(10000000));
        System.out.println(longs(8000000));
    }
}
