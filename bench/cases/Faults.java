/** What the machine throws, and where it is caught. */
public class Faults {
    static int zero;
    static int depth;

    static class Bad {
        static int number = 1 / zero;
    }

    static class Other {
        static int number = 5;
        static {
            if (zero == 0) {
                throw new IllegalStateException("no");
            }
        }
    }

    static class Error extends java.lang.Error {
        Error() {
            super("own");
        }
    }

    static class Third {
        static int number = fails();

        static int fails() {
            throw new Error();
        }
    }

    static int deep() {
        depth++;
        return deep() + 1;
    }

    static int inFinally(int[] at) {
        try {
            return at[0];
        } catch (ArrayIndexOutOfBoundsException none) {
            return -1;
        } finally {
            System.out.print('f');
        }
    }

    static int kindOf(int which) {
        Object[] objects = new String[1];
        Object object = "text";
        int[] none = null;
        try {
            switch (which) {
                case 0:
                    return 1 / zero;
                case 1:
                    return 1 % zero;
                case 2:
                    return (int) (1L / zero);
                case 3:
                    return new int[-1].length;
                case 4:
                    return none[0];
                case 5:
                    return none.length;
                case 6:
                    return new int[2][2].length + new int[3][0][-2].length;
                case 7:
                    objects[0] = object;
                    objects[0] = new Faults();
                    return 0;
                case 8:
                    return ((int[]) object)[0];
                case 9:
                    return new byte[3][4][3].length + inFinally(new int[0]);
                case 10:
                    throw null;
                default:
                    return inFinally(new int[] {7});
            }
        } catch (ArithmeticException wrong) {
            System.out.print(wrong.getMessage());
            return 1;
        } catch (NegativeArraySizeException wrong) {
            return 2;
        } catch (NullPointerException wrong) {
            return 3;
        } catch (ArrayStoreException wrong) {
            return 4;
        } catch (ClassCastException wrong) {
            return 5;
        }
    }

    static int touch(int which) {
        try {
            return which == 0 ? Bad.number : which == 1 ? Other.number : Third.number;
        } catch (ExceptionInInitializerError wrong) {
            return wrong.getCause() == null ? -1 : wrong.getCause() instanceof ArithmeticException ? -2 : -3;
        } catch (NoClassDefFoundError wrong) {
            return -4;
        } catch (Error own) {
            System.out.print(own.getMessage());
            return -5;
        }
    }

    public static void main(String[] arguments) {
        for (int i = 0; i < 6; i++) {
            System.out.println(kindOf(i));
        }
        System.out.println(kindOf(7));
        System.out.println(kindOf(8));
        System.out.println(kindOf(10));
        System.out.println(kindOf(11));
        System.out.println(inFinally(new int[0]));
        for (int i = 0; i < 6; i++) {
            System.out.println(touch(i / 2));
        }
        try {
            deep();
        } catch (StackOverflowError wrong) {
            System.out.println(depth > 100);
        }
    }
}
