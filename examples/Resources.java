/** What is opened is closed, whatever is thrown: `try` with resources, suppressed exceptions, `finally`, and a status for the caller. */
public class Resources {
    static class Failure extends RuntimeException {
        Failure(String message, Throwable cause) {
            super(message, cause);
        }
    }

    static final class Handle implements AutoCloseable {
        private final String name;
        private final boolean fails;

        Handle(String name, boolean fails) {
            this.name = name;
            this.fails = fails;
            System.out.println("open " + name);
        }

        int use(int number) {
            if (number < 0) {
                throw new IllegalArgumentException(name + " takes no " + number);
            }
            return 100 / number;
        }

        @Override
        public void close() {
            System.out.println("close " + name);
            if (fails) {
                throw new IllegalStateException(name + " doesn't close");
            }
        }
    }

    static int work(int number, boolean fails) {
        try (Handle outer = new Handle("outer", false); Handle inner = new Handle("inner", fails)) {
            return outer.use(number) + inner.use(number);
        } catch (ArithmeticException divided) {
            throw new Failure("can't work with " + number, divided);
        } finally {
            System.out.println("finally " + number);
        }
    }

    static void show(String indent, String how, Throwable thrown) {
        System.out.println(indent + how + thrown);
        for (Throwable suppressed : thrown.getSuppressed()) {
            show(indent + "  ", "suppressed: ", suppressed);
        }
        if (thrown.getCause() != null) {
            show(indent + "  ", "caused by: ", thrown.getCause());
        }
    }

    public static void main(String[] arguments) {
        int failed = 0;
        int[] numbers = {5, 0, -1, 4};
        for (int i = 0; i < numbers.length; i++) {
            try {
                System.out.println(work(numbers[i], i >= 1));
            } catch (RuntimeException thrown) {
                failed++;
                show("", "", thrown);
            }
        }
        System.out.println(failed + " failed");
        System.exit(failed);
    }
}
