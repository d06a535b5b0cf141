/** A small stack machine: a switch in a loop, with handlers and arrays. */
class Machine {
    private static final int PUSH = 0;
    private final int[] code;
    private long[] stack = new long[4];
    private int top;

    Machine(int... code) {
        this.code = code;
    }

    private void push(long value) {
        if (top == stack.length) {
            long[] more = new long[2 * top];
            System.arraycopy(stack, 0, more, 0, top);
            stack = more;
        }
        stack[top++] = value;
    }

    private long pop() {
        return stack[--top];
    }

    Object run() {
        int pc = 0;
        Throwable failed = null;
        try {
            while (pc < code.length) {
                int opcode = code[pc++];
                long right = opcode > 1 ? pop() : 0;
                switch (opcode) {
                    case PUSH:
                        push(code[pc++]);
                        break;
                    case 1:
                        push(stack[top - 1]);
                        break;
                    case 2:
                        push(pop() + right);
                        break;
                    case 3:
                        push(pop() * right);
                        break;
                    case 4:
                        push(pop() / right);
                        break;
                    case 5:
                        if (right == 0) {
                            pc = (int) pop();
                        }
                        break;
                    default:
                        throw new UnsupportedOperationException(String.valueOf(opcode));
                }
            }
        } catch (ArithmeticException zero) {
            failed = zero;
        } catch (IndexOutOfBoundsException outside) {
            failed = outside.getCause() == null ? outside : outside.getCause();
        }
        return failed == null ? (Object) Long.valueOf(pop()) : failed;
    }

    public static void main(String[] words) {
        System.out.println(new Machine(0, 3, 0, 4, 2, 1, 3).run());
        System.out.println(new Machine(0, 3, 0, 0, 4).run());
    }
}
