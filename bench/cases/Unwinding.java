/** Which handler takes an exception, and what has run by then. */
public class Unwinding {
    static class Failure extends Exception {
        final int number;

        Failure(int number) {
            super("failure");
            this.number = number;
        }
    }

    static class Worse extends Failure {
        Worse(int number) {
            super(number);
        }
    }

    // Their initialisers throw: an exception, which is wrapped, one by a call of three frames, and errors, which are passed on.
    static class Wrapped {
        static final RuntimeException cause = new IllegalStateException("cause");
        static int number = 1;

        static {
            if (number == 1) {
                throw cause;
            }
        }
    }

    static class Called {
        static int number = first(0);
    }

    static class PassedOn {
        static final Error error = new AssertionError("passed on");

        static {
            if (error != null) {
                throw error;
            }
        }

        static int number;
    }

    // The initialiser throws what it caught of another one.
    static class Again {
        static int number;

        static {
            try {
                number = Called.number;
            } catch (NoClassDefFoundError error) {
                System.out.println("again");
                throw error;
            }
        }
    }

    static int zero;
    static Throwable last;

    static void told(String what, int number) {
        System.out.print(what);
        System.out.print(' ');
        System.out.println(number);
    }

    static int step(String what, int number) {
        told(what, number);
        return number;
    }

    static void fail(int number) throws Failure {
        if (number > 5) {
            throw new Worse(number);
        }
        throw new Failure(number);
    }

    // Nested handlers: the innermost whose class fits, of these the first, and none of the same `try` for what a handler throws.
    static int nested(int which) {
        int trace = 1;
        try {
            try {
                trace = 2;
                if (which == 0) {
                    fail(3);
                }
                if (which == 1) {
                    fail(6);
                }
                trace = which / zero;
            } catch (Worse worse) {
                trace = 10 * trace + worse.number;
                try {
                    fail(4);
                } catch (Failure failure) {
                    trace = 10 * trace + failure.number;
                    throw new IndexOutOfBoundsException("of a handler");
                }
            } catch (Failure failure) {
                trace = 10 * trace + failure.number;
                return trace;
            } catch (IndexOutOfBoundsException never) {
                trace = 99;
            }
            trace = 98;
        } catch (IndexOutOfBoundsException other) {
            trace = 10 * trace + 7;
        } catch (ArithmeticException division) {
            trace = 10 * trace + 8;
        }
        return trace;
    }

    // What stands before and behind a `try` isn't covered, and what lay on the operand stack is gone where the handler begins.
    @SuppressWarnings("finally")
    static int ends(int which) {
        int[] one = new int[1];
        int at = which;
        at = 3 + one[at - at];
        try {
            at = 100 + 10 * at + one[which] * (1000 + one[which]);
        } catch (ArrayIndexOutOfBoundsException outside) {
            at = at + 1;
            return 1000 * at + one[at - 4];
        }
        try {
            at = at + one[0];
        } catch (RuntimeException never) {
            at = 97;
        }
        return at + one[which + 1];
    }

    // A handler takes the classes below its own, and each throwable.
    static int superclasses(int which) {
        Object[] objects = new Integer[1];
        try {
            switch (which) {
                case 0:
                    return objects.length / zero;
                case 1:
                    return objects[1] == null ? 1 : 2;
                case 2:
                    objects[0] = "text";
                    return 3;
                case 3:
                    return ((Object[]) (Object) new int[1]).length;
                case 4:
                    return new long[-1].length;
                case 5:
                    return ((int[]) objects[0]).length;
                case 6:
                    throw null;
                case 7:
                    throw new StackOverflowError("of the program");
                case 8:
                    throw new Throwable("itself");
                default:
                    return superclasses(which - 1) + 1;
            }
        } catch (IndexOutOfBoundsException | ArithmeticException exception) {
            last = exception;
            return 10;
        } catch (RuntimeException exception) {
            last = exception;
            return exception instanceof NullPointerException ? 21 : exception instanceof ClassCastException ? 22 : 20;
        } catch (VirtualMachineError error) {
            System.out.println(error.getMessage());
            return 30;
        } catch (Throwable throwable) {
            System.out.println(throwable.getMessage());
            return 40;
        } finally {
            System.out.print(last == null ? '-' : '+');
        }
    }

    // Through three frames, each with something on its operand stack, and a `finally` in each.
    static int third(int number) {
        try {
            return 7 * number + 5 / (number - number);
        } finally {
            System.out.print("third ");
        }
    }

    static int second(int number) {
        int local = number + 1;
        try {
            local = local + third(local) * 3;
            return local;
        } catch (IllegalStateException never) {
            return 96;
        } finally {
            told("second", local);
        }
    }

    static int first(int number) {
        return 1 + (number + second(number));
    }

    static int frames() {
        long kept = 1L << 40;
        int counted = 5;
        try {
            counted = counted + first(counted++);
        } catch (ArithmeticException division) {
            System.out.println(division.getMessage());
            return counted + (int) (kept >> 38);
        }
        return 95;
    }

    // `finally` that runs behind each end of a `try`, that answers in place of an exception, and that throws in its place.
    @SuppressWarnings("finally")
    static int ways(int which) {
        for (int turn = 0; ; turn++) {
            try {
                if (turn < which) {
                    continue;
                }
                if (which == 2) {
                    break;
                }
                if (which == 3) {
                    return 1 / zero;
                }
                return step("returns", which);
            } finally {
                told("finally", turn);
                if (which == 3) {
                    return 33;
                }
            }
        }
        try {
            try {
                throw new IllegalStateException("inner");
            } finally {
                int[] none = null;
                told("of finally", which);
                none[0] = 1;
            }
        } catch (NullPointerException pointer) {
            return 44;
        } catch (IllegalStateException never) {
            return 94;
        }
    }

    // What is thrown again is the same object, from a handler, through a `finally`, and by another method.
    static void again(Throwable throwable) throws Throwable {
        throw throwable;
    }

    static void rethrown(boolean worse) {
        Failure thrown = worse ? new Worse(8) : new Failure(2);
        try {
            try {
                try {
                    again(thrown);
                } catch (Worse caught) {
                    System.out.println(caught == thrown);
                    throw caught;
                } catch (Failure caught) {
                    System.out.println(caught == thrown);
                    throw new Worse(caught.number + 10);
                } finally {
                    System.out.println("on the way");
                }
            } catch (Failure caught) {
                System.out.println(caught == thrown);
                again(caught);
            }
        } catch (Worse caught) {
            told("caught again", caught.number);
        } catch (Throwable never) {
            told("never", 93);
        }
    }

    // The initialisers, twice each.
    static void initialisers(int which) {
        try {
            told("number", which == 0 ? Wrapped.number : which == 1 ? Called.number : which == 2 ? PassedOn.number : Again.number);
        } catch (ExceptionInInitializerError error) {
            Throwable cause = error.getCause();
            System.out.println(error.getMessage() == null);
            System.out.println(cause.getMessage());
            System.out.println(cause instanceof IllegalStateException || cause instanceof ArithmeticException);
        } catch (NoClassDefFoundError error) {
            told("not found", which);
        } catch (AssertionError error) {
            System.out.println(error.getMessage());
        }
    }

    public static void main(String[] arguments) throws Failure {
        for (int which = 0; which < 3; which++) {
            told("nested", nested(which));
        }
        told("ends", ends(1));
        try {
            told("ends", ends(0));
        } catch (ArrayIndexOutOfBoundsException outside) {
            told("behind", 0);
        }
        for (int which = 0; which < 10; which++) {
            told("superclasses", superclasses(which));
        }
        told("frames", frames());
        for (int which = 0; which < 4; which++) {
            told("ways", ways(which));
        }
        rethrown(true);
        rethrown(false);
        for (int which = 0; which < 8; which++) {
            initialisers(which / 2);
        }
        fail(9);
    }
}
