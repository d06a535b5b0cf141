class Bits {
    static int count(long bits) {
        int count = 0;
        for (; bits != 0; bits &= bits - 1) count++;
        return count;
    }
    static long mix(int a, long b, byte c, char d) {
        long sum = a * 31L + b;
        sum ^= (sum >>> 7) ^ ((long) c << 40);
        sum -= -a / (b == 0 ? 1 : b) % 5;
        return a > c && (b <= d || sum < 0) ? ~sum : sum | d;
    }
    static long most(long first, long... rest) {
        long most = first;
        for (long one : rest) most = one > most ? one : most;
        return most;
    }
    static short narrow(int n) {
        byte b = (byte) n;
        char c = (char) n;
        b += c;
        return (short) (b == c ? n : b << 2);
    }
    public static void main(String[] args) {
        System.out.println(count(mix(3, -5L, (byte) 200, 'x')));
        System.out.println(most(1L, 2L, narrow(70000)));
    }
}
