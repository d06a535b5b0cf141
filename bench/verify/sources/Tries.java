class Tries {
    static int[] room = new int[2];
    static int read(int at) {
        try {
            return room[at];
        } catch (ArrayIndexOutOfBoundsException e) {
            return -1;
        } finally {
            room[0]++;
        }
    }
    static int nested(Object o) {
        int state = 0;
        try {
            state = 1;
            try {
                state = o.hashCode();
                throw new IllegalStateException("inner");
            } catch (NullPointerException | ArithmeticException e) {
                state = 2;
            } finally {
                state += 10;
            }
        } catch (IllegalStateException e) {
            state = -state;
        } catch (RuntimeException e) {
            throw e;
        }
        return state;
    }
    static void again(int n) {
        while (true) {
            try {
                if (n / (n - 3) > 100) break;
                n++;
                if (n > 9) return;
            } catch (ArithmeticException e) {
                n = 5;
                continue;
            } finally {
                room[1] = n;
            }
        }
    }
    static long held(long number) throws Exception {
        String text = "none";
        try {
            long twice = number * 2;
            text = String.valueOf(twice);
            if (twice > 5) throw new Exception(text);
            number = twice;
        } catch (Exception e) {
            number += text.length();
            throw e;
        }
        return number;
    }
    public static void main(String[] args) throws Exception {
        System.out.println(read(2) + nested(null));
        again(1);
        System.out.println(held(1));
    }
}
