/** Handlers, nested and in loops, with values that stay and values that are lost. */
class Handlers {
    static class Fault extends Exception {
        final int code;

        Fault(int code, Throwable cause) {
            super("fault", cause);
            this.code = code;
        }
    }

    static class Door implements AutoCloseable {
        private final boolean bad;

        Door(boolean bad) {
            this.bad = bad;
        }

        @Override
        public void close() throws Fault {
            if (bad) {
                throw new Fault(2, null);
            }
        }
    }

    static int simple(int[] array, int index) {
        int value = -1;
        try {
            value = array[index];
            value = 10 / value;
        } catch (ArrayIndexOutOfBoundsException outside) {
            value = -2;
        } catch (ArithmeticException | NullPointerException other) {
            String message = other.getMessage();
            value = message == null ? 0 : message.length();
        }
        return value;
    }

    static long last(long start) {
        long sum = start;
        try {
            sum += 5;
            if (sum > 100) {
                return sum;
            }
            sum = sum / (start - 3);
        } catch (RuntimeException bad) {
            sum = -sum;
            throw bad;
        } finally {
            System.out.println(sum);
            sum++;
        }
        return sum;
    }

    static String nested(Object object) throws Fault {
        StringBuilder text = new StringBuilder();
        for (int turn = 0; turn < 3; turn++) {
            try {
                try {
                    Integer number = (Integer) object;
                    text.append(number.intValue() / turn);
                } catch (ArithmeticException zero) {
                    text.append('z');
                    continue;
                } finally {
                    text.append(turn);
                }
                if (turn == 2) {
                    break;
                }
            } catch (ClassCastException wrong) {
                throw new Fault(turn, wrong);
            }
        }
        return text.toString();
    }

    static int resources(boolean bad) {
        Object kept = null;
        try (Door first = new Door(bad); Door second = new Door(!bad)) {
            kept = first;
            return second.hashCode();
        } catch (Fault fault) {
            return fault.code + fault.getSuppressed().length;
        } finally {
            System.out.println(kept == null);
        }
    }

    static void forever(int[] counts) throws Exception {
        int i = 0;
        while (true) {
            try {
                counts[i++]++;
            } catch (RuntimeException end) {
                if (i > 3) {
                    return;
                }
                Throwable cause = end.getCause();
                throw cause == null ? end : cause instanceof Error ? new IllegalStateException(cause) : new Exception(cause);
            }
        }
    }

    public static void main(String[] words) throws Exception {
        System.out.println(simple(new int[] {0}, 0) + last(1) + nested(Integer.valueOf(4)) + resources(true));
        forever(new int[5]);
    }
}
