public class Interpreter {
    static final int PUSH = 0, ADD = 1, MUL = 2, JNZ = 3, DUP = 4, PRINT = 5, HALT = 6, DEC = 7, SWAP = 8;
    public static void main(String[] args) {
        int[] code = { PUSH, 1, PUSH, 6, DUP, PRINT, SWAP, PUSH, 3, MUL, PUSH, 1, ADD, DUP, PRINT, SWAP, DEC, DUP, JNZ, 4, HALT, 99 }; int[] stack = new int[16]; int sp = 0, pc = 0, steps = 0;
        loop: while (true) { steps++; switch (code[pc++]) { case PUSH: stack[sp++] = code[pc++]; break; case ADD: sp--; stack[sp - 1] += stack[sp]; break; case MUL: sp--; stack[sp - 1] *= stack[sp]; break; case JNZ: if (stack[--sp] != 0) pc = code[pc]; else pc++; break; case DUP: stack[sp] = stack[sp - 1]; sp++; break; case PRINT: System.out.print(stack[--sp]); System.out.print(' '); break; case DEC: stack[sp - 1]--; break; case SWAP: int t = stack[sp - 1]; stack[sp - 1] = stack[sp - 2]; stack[sp - 2] = t; break; case HALT: break loop; default: throw new IllegalStateException(); }
            if (pc == 19 && stack[sp - 1] != 0) stack[sp] = stack[sp - 1]; if (pc == 4 && sp == 1) stack[sp++] = 1; }
        System.out.println(); System.out.println(steps);
    }
}
