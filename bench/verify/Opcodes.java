import java.util.ArrayList;
import java.util.List;

/** The opcodes of the profile by name, with the lengths of their instructions (JVMS chapter 6). */
final class Opcodes {
    private Opcodes() {
    }

    static final String[] NAMES = new String[256];

    static {
        String all = "nop aconst_null iconst_m1 iconst_0 iconst_1 iconst_2 iconst_3 iconst_4 iconst_5 lconst_0 lconst_1 fconst_0 fconst_1 "
            + "fconst_2 dconst_0 dconst_1 bipush sipush ldc ldc_w ldc2_w iload lload fload dload aload iload_0 iload_1 iload_2 iload_3 "
            + "lload_0 lload_1 lload_2 lload_3 fload_0 fload_1 fload_2 fload_3 dload_0 dload_1 dload_2 dload_3 aload_0 aload_1 aload_2 "
            + "aload_3 iaload laload faload daload aaload baload caload saload istore lstore fstore dstore astore istore_0 istore_1 "
            + "istore_2 istore_3 lstore_0 lstore_1 lstore_2 lstore_3 fstore_0 fstore_1 fstore_2 fstore_3 dstore_0 dstore_1 dstore_2 "
            + "dstore_3 astore_0 astore_1 astore_2 astore_3 iastore lastore fastore dastore aastore bastore castore sastore pop pop2 dup "
            + "dup_x1 dup_x2 dup2 dup2_x1 dup2_x2 swap iadd ladd fadd dadd isub lsub fsub dsub imul lmul fmul dmul idiv ldiv fdiv ddiv "
            + "irem lrem frem drem ineg lneg fneg dneg ishl lshl ishr lshr iushr lushr iand land ior lor ixor lxor iinc i2l i2f i2d l2i "
            + "l2f l2d f2i f2l f2d d2i d2l d2f i2b i2c i2s lcmp fcmpl fcmpg dcmpl dcmpg ifeq ifne iflt ifge ifgt ifle if_icmpeq "
            + "if_icmpne if_icmplt if_icmpge if_icmpgt if_icmple if_acmpeq if_acmpne goto jsr ret tableswitch lookupswitch ireturn "
            + "lreturn freturn dreturn areturn return getstatic putstatic getfield putfield invokevirtual invokespecial invokestatic "
            + "invokeinterface invokedynamic new newarray anewarray arraylength athrow checkcast instanceof monitorenter monitorexit "
            + "wide multianewarray ifnull ifnonnull goto_w jsr_w";
        String[] names = all.split(" ");
        System.arraycopy(names, 0, NAMES, 0, names.length);
    }

    static int length(int opcode) {
        return switch (opcode) {
            case 0x10, 0x12, 0x15, 0x16, 0x17, 0x18, 0x19, 0x36, 0x37, 0x38, 0x39, 0x3a, 0xa9, 0xbc -> 2;
            case 0xc5 -> 4;
            case 0xb9, 0xba, 0xc8, 0xc9 -> 5;
            case 0x11, 0x13, 0x14, 0x84, 0xbb, 0xbd, 0xc0, 0xc1, 0xc6, 0xc7 -> 3;
            default -> opcode >= 0x99 && opcode <= 0xa8 || opcode >= 0xb2 && opcode <= 0xb8 ? 3 : 1;
        };
    }

    /** Whether this machine leaves the instruction out: it works on floats, monitors or subroutines, or is no instruction. */
    static boolean isLeftOut(int opcode) {
        String name = NAMES[opcode];
        return name == null || name.matches("[fd](?!u).*|.2[fd]|monitor.*|jsr.*|ret|invokedynamic|wide|.*switch");
    }

    /** Groups of opcodes that stand for each other most easily, with one length and kind of operand. */
    static final int[][] GROUPS = {
        range(0x01, 0x0a), {0x10, 0xbc}, {0x15, 0x16, 0x19, 0x36, 0x37, 0x3a}, {0x12}, {0x13}, {0x11}, {0x84},
        join(range(0x1a, 0x21), range(0x2a, 0x2d)), join(range(0x3b, 0x42), range(0x4b, 0x4e)), {0x2e, 0x2f, 0x32, 0x33, 0x34, 0x35},
        {0x4f, 0x50, 0x53, 0x54, 0x55, 0x56}, range(0x57, 0x5f), {0x60, 0x64, 0x68, 0x6c, 0x70, 0x78, 0x7a, 0x7c, 0x7e, 0x80, 0x82},
        {0x61, 0x65, 0x69, 0x6d, 0x71, 0x79, 0x7b, 0x7d, 0x7f, 0x81, 0x83, 0x94}, {0x74, 0x75, 0x85, 0x88, 0x91, 0x92, 0x93},
        join(range(0x99, 0xa7), range(0xc6, 0xc7)), {0xac, 0xad, 0xb0, 0xb1, 0xbf}, range(0xb2, 0xb5), {0xb6, 0xb7, 0xb8},
        {0xbb, 0xbd, 0xc0, 0xc1},
    };

    private static int[] range(int from, int to) {
        int[] numbers = new int[to - from + 1];
        for (int i = 0; i < numbers.length; i++) {
            numbers[i] = from + i;
        }
        return numbers;
    }

    private static int[] join(int[] one, int[] other) {
        int[] both = java.util.Arrays.copyOf(one, one.length + other.length);
        System.arraycopy(other, 0, both, one.length, other.length);
        return both;
    }

    static List<Integer> near(int opcode) {
        List<Integer> found = new ArrayList<>();
        for (int[] group : GROUPS) {
            for (int own : group) {
                if (own == opcode) {
                    for (int other : group) {
                        if (other != opcode && !isLeftOut(other)) {
                            found.add(other);
                        }
                    }
                }
            }
        }
        return found;
    }

    /** All of the profile with this length and no index of the pool, number of a class, or place. */
    static List<Integer> any(int length) {
        List<Integer> found = new ArrayList<>();
        for (int opcode = 0; opcode < 0xc8; opcode++) {
            boolean isBare = length(opcode) == length && opcode != 0x12 && opcode != 0xbc;
            if (isBare && !isLeftOut(opcode) && (length == 1 || length == 2)) {
                found.add(opcode);
            }
        }
        return found;
    }

    /** The tag of the constants that an instruction with an index names; 0 where it has none, or may have several. */
    static int tag(int opcode) {
        return switch (opcode) {
            case 0xb2, 0xb3, 0xb4, 0xb5 -> 9;
            case 0xb6, 0xb7, 0xb8 -> 10;
            case 0xb9 -> 11;
            case 0xbb, 0xbd, 0xc0, 0xc1, 0xc5 -> 7;
            case 0x14 -> 5;
            default -> 0;
        };
    }
}
