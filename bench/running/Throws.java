// Exceptions that are thrown and caught in a loop, in the same method and through three others.
class Throws {
    static class Odd extends RuntimeException {
        final int number;

        Odd(int number) {
            this.number = number;
        }
    }

    static int check(int i) {
        if ((i & 1) == 1) {
            throw new Odd(i);
        }
        return i;
    }

    static int through(int i) {
        return check(i) + 1;
    }

    static int deeper(int i) {
        try {
            return through(i);
        } catch (IllegalStateException no) {
            return -1;
        }
    }

    public static void main(String[] args) {
        long sum = 0;
        for (int i = 0; i < 500000; i++) {
            try {
                sum += deeper(i);
            } catch (Odd odd) {
                sum -= odd.number;
            }
            try {
                sum += 7 / (i & 3);
            } catch (ArithmeticException zero) {
                sum++;
            }
        }
        System.out.println(sum);
    }
}
