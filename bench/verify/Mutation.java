import java.util.ArrayList;
import java.util.List;
import java.util.Random;

/** One change of a method's code or frames, by a seeded choice. Each way to change answers what it did, or null where it can't. */
final class Mutation {
    private static final int[] TAGS = {0, 1, 4, 5, 6, 7, 7, 7, 7, 8, 8};

    private final ClassBytes file;
    private final Code code;
    private final Random random;
    private final List<Integer> places;

    private Mutation(ClassBytes file, Code code, Random random) {
        this.file = file;
        this.code = code;
        this.random = random;
        places = code.places();
    }

    /** Changes the method's code in one way, sometimes in two or three, and says how. */
    static String apply(ClassBytes file, Code code, Random random) {
        int count = random.nextInt(10) < 8 ? 1 : 2 + random.nextInt(2);
        StringBuilder said = new StringBuilder();
        for (int tries = 0; count > 0 && tries < 60; tries++) {
            String what = new Mutation(file, code, random).once();
            if (what != null) {
                said.append(said.isEmpty() ? "" : "; ").append(what);
                count--;
            }
        }
        return said.toString();
    }

    private String once() {
        return switch (random.nextInt(20)) {
            case 0, 1, 2 -> opcode(true);
            case 3 -> opcode(false);
            case 4, 5 -> local();
            case 6 -> branch();
            case 7 -> poolIndex();
            case 8 -> limits();
            case 9, 10 -> swap();
            case 11 -> nothing();
            case 12, 13 -> handler();
            case 14 -> random.nextInt(8) > 0 ? number() : version();
            case 15 -> random.nextInt(12) > 0 ? frameList() : noFrames();
            case 16 -> frameForm();
            default -> frameType();
        };
    }

    private int one(List<Integer> list) {
        return list.get(random.nextInt(list.size()));
    }

    private int place() {
        return one(places);
    }

    private String at(int place) {
        return place + " " + Opcodes.NAMES[code.u1(place)];
    }

    private String opcode(boolean near) {
        int place = place();
        int opcode = code.u1(place);
        List<Integer> others = near || code.length(place) > 2 ? Opcodes.near(opcode) : Opcodes.any(code.length(place));
        if (others.isEmpty() || opcode == 0xc4 || Opcodes.length(opcode) != code.length(place)) {
            return null;
        }
        String before = at(place);
        code.code[place] = (byte) one(others);
        return "opcode " + before + " -> " + Opcodes.NAMES[code.u1(place)];
    }

    /** Another local variable. */
    private String local() {
        int place = place();
        int opcode = code.u1(place);
        String before = at(place);
        int local = random.nextInt(code.maxLocals + 2);
        if (opcode >= 0x1a && opcode <= 0x2d || opcode >= 0x3b && opcode <= 0x4e) {
            int base = opcode <= 0x2d ? 0x1a : 0x3b;
            code.code[place] = (byte) (base + (opcode - base) / 4 * 4 + local % 4);
            return "local " + before + " -> " + Opcodes.NAMES[code.u1(place)];
        }
        if (opcode >= 0x15 && opcode <= 0x19 || opcode >= 0x36 && opcode <= 0x3a || opcode == 0x84) {
            code.code[place + 1] = (byte) local;
            return "local " + before + " -> " + local;
        }
        return null;
    }

    private static boolean branches(int opcode) {
        return opcode >= 0x99 && opcode <= 0xa7 || opcode == 0xc6 || opcode == 0xc7;
    }

    /** A target of a branch or a switch, mostly at a frame. */
    private String branch() {
        int place = place();
        int opcode = code.u1(place);
        int target = target();
        String before = at(place);
        if (branches(opcode)) {
            code.set2(place + 1, target - place);
            return "branch " + before + " -> " + target;
        }
        if (opcode == 0xaa || opcode == 0xab) {
            int at = Code.padded(place);
            int count = opcode == 0xaa ? code.s4(at + 8) - code.s4(at + 4) + 1 : code.s4(at + 4);
            int which = random.nextInt(count + 1);
            int offset = which == 0 ? at : opcode == 0xaa ? at + 8 + 4 * which : at + 4 + 8 * which;
            code.set4(offset, target - place);
            return "branch " + before + " " + which + " -> " + target;
        }
        return null;
    }

    private int target() {
        List<Integer> frames = code.framePlaces();
        return random.nextInt(20) == 0 ? random.nextInt(code.code.length + 2)
            : frames.isEmpty() || random.nextInt(4) == 0 ? place() : one(frames);
    }

    private String poolIndex() {
        int place = place();
        int opcode = code.u1(place);
        String before = at(place);
        if (opcode == 0x12) {
            int index = one(constants());
            code.code[place + 1] = (byte) index;
            return index > 255 ? null : "index " + before + " -> " + file.say(index);
        }
        int tag = Opcodes.tag(opcode);
        if (tag == 0) {
            return null;
        }
        boolean isSpecial = (opcode == 0xb7 || opcode == 0xb8) && random.nextInt(4) == 0;
        List<Integer> fitting = file.indices(isSpecial ? 11 : tag);
        if (fitting.isEmpty()) {
            return null;
        }
        int index = one(fitting);
        code.set2(place + 1, index);
        return "index " + before + " -> " + file.say(index);
    }

    /** What `ldc` may load, or index 1. */
    private List<Integer> constants() {
        List<Integer> found = new ArrayList<>(file.indices(3));
        found.addAll(file.indices(7));
        found.addAll(file.indices(8));
        found.removeIf(index -> index > 255);
        return found;
    }

    private String limits() {
        int by = random.nextInt(4) - 2;
        by += by >= 0 ? 1 : 0;
        if (random.nextBoolean()) {
            code.maxStack = Math.max(0, code.maxStack + by);
            return "max_stack -> " + code.maxStack;
        }
        code.maxLocals = Math.max(0, code.maxLocals + by);
        return "max_locals -> " + code.maxLocals;
    }

    /** An instruction changes places with its neighbour; branches keep their targets. */
    private String swap() {
        int which = random.nextInt(places.size());
        if (which + 1 == places.size()) {
            return null;
        }
        int place = places.get(which);
        int next = places.get(which + 1);
        int length = code.length(next);
        if (isSwitch(place) || isSwitch(next)) {
            return null;
        }
        String before = at(place) + " and " + at(next);
        byte[] own = java.util.Arrays.copyOfRange(code.code, place, next);
        byte[] other = java.util.Arrays.copyOfRange(code.code, next, next + length);
        System.arraycopy(other, 0, code.code, place, length);
        System.arraycopy(own, 0, code.code, place + length, own.length);
        mend(place, length, next - place);
        mend(place + length, own.length, -length);
        return "swap " + before;
    }

    private boolean isSwitch(int place) {
        return code.u1(place) == 0xaa || code.u1(place) == 0xab;
    }

    /** A branch that was moved down by so many bytes. */
    private void mend(int place, int length, int by) {
        if (length == 3 && branches(code.u1(place))) {
            code.set2(place + 1, code.s2(place + 1) + by);
        }
    }

    /** An instruction becomes so many `nop`. */
    private String nothing() {
        int place = place();
        String before = at(place);
        java.util.Arrays.fill(code.code, place, place + code.length(place), (byte) 0);
        return "nop for " + before;
    }

    private String number() {
        int place = place();
        int opcode = code.u1(place);
        if (opcode != 0x10 && opcode != 0xbc && opcode != 0xc5 && opcode != 0xb9) {
            return null;
        }
        String before = at(place);
        int number = opcode == 0x10 ? random.nextInt(256) : opcode == 0xbc ? 4 + random.nextInt(8) : random.nextInt(4);
        code.code[place + (opcode == 0x10 || opcode == 0xbc ? 1 : 3)] = (byte) number;
        return "number " + before + " -> " + number;
    }

    /** Not 50, for which HotSpot turns to its verifier by inference where the one by type checking refuses. */
    private String version() {
        file.major = 51;
        return "version -> " + file.major;
    }

    private String handler() {
        if (code.handlers.isEmpty()) {
            return null;
        }
        int[] handler = code.handlers.get(random.nextInt(code.handlers.size()));
        if (random.nextInt(6) == 0) {
            handler = handler.clone();
            code.handlers.add(random.nextInt(code.handlers.size() + 1), handler);
        }
        int which = random.nextInt(4);
        if (which == 3) {
            handler[3] = random.nextInt(4) == 0 ? 0 : one(file.indices(7));
            return "handler catches " + (handler[3] == 0 ? "any" : file.say(handler[3]));
        }
        int near = places.indexOf(handler[which]) + (random.nextBoolean() ? 1 : -1);
        boolean stays = near >= 0 && near < places.size() && random.nextBoolean();
        handler[which] = random.nextInt(20) == 0 ? handler[which] + 1 : which == 2 ? target() : stays ? places.get(near) : place();
        return "handler " + (which == 0 ? "start" : which == 1 ? "end" : "target") + " -> " + handler[which];
    }

    private String noFrames() {
        code.frames = null;
        return "no StackMapTable";
    }

    /** Which frame, or -1 where there is none. */
    private int frame() {
        return code.frames == null || code.frames.isEmpty() ? -1 : random.nextInt(code.frames.size());
    }

    private String nameOf(int which) {
        return "frame at " + code.framePlaces().get(which);
    }

    private void push(int which, int by) {
        if (random.nextInt(4) > 0 && which < code.frames.size()) {
            code.frames.get(which).delta += by;
        }
    }

    /** A frame goes, comes twice, or moves; the next one mostly stays where it was. */
    private String frameList() {
        int which = frame();
        if (which < 0) {
            return null;
        }
        String before = nameOf(which);
        MapFrame frame = code.frames.get(which);
        switch (random.nextInt(3)) {
            case 0 -> {
                code.frames.remove(which);
                push(which, frame.delta + 1);
                return "without " + before;
            }
            case 1 -> {
                MapFrame again = frame.copy();
                again.delta = random.nextInt(4);
                code.frames.add(which + 1, again);
                push(which + 2, -again.delta - 1);
                return "twice " + before + ", again after " + again.delta;
            }
            default -> {
                int by = random.nextInt(7) - 3;
                frame.delta += by;
                push(which + 1, -by);
                return "moved " + before + " by " + by;
            }
        }
    }

    private String frameForm() {
        int which = frame();
        if (which < 0) {
            return null;
        }
        MapFrame frame = code.frames.get(which);
        frame.form = MapFrame.Form.values()[random.nextInt(5)];
        frame.chopped = 1 + random.nextInt(3);
        while (frame.form == MapFrame.Form.APPEND && frame.locals.size() > 3) {
            frame.locals.remove(3);
        }
        if (frame.form == MapFrame.Form.APPEND && frame.locals.isEmpty()) {
            frame.locals.add(type());
        }
        if (frame.form != MapFrame.Form.APPEND && frame.form != MapFrame.Form.FULL) {
            frame.locals.clear();
        }
        if (frame.form == MapFrame.Form.ITEM && frame.stack.size() != 1) {
            frame.stack.clear();
            frame.stack.add(type());
        }
        if (frame.form != MapFrame.Form.ITEM && frame.form != MapFrame.Form.FULL) {
            frame.stack.clear();
        }
        return nameOf(which) + " is " + frame.form + (frame.form == MapFrame.Form.CHOP ? " " + frame.chopped : "");
    }

    private int[] type() {
        int tag = TAGS[random.nextInt(TAGS.length)];
        return new int[] {tag, tag == 7 ? one(file.indices(7)) : tag == 8 ? newPlace() : 0};
    }

    /** Mostly that of a `new`. */
    private int newPlace() {
        List<Integer> made = new ArrayList<>(places);
        made.removeIf(place -> code.u1(place) != 0xbb);
        return made.isEmpty() || random.nextInt(8) == 0 ? random.nextInt(code.code.length + 2) : one(made);
    }

    private String typeName(int[] type) {
        String[] names = {"top", "int", "float", "double", "long", "null", "this", "object:", "new:"};
        return names[type[0]] + (type[0] == 7 ? file.say(type[1]) : type[0] == 8 ? "" + type[1] : "");
    }

    /** A type of a frame becomes another, goes or comes. */
    private String frameType() {
        int which = frame();
        if (which < 0) {
            return null;
        }
        MapFrame frame = code.frames.get(which);
        boolean isLocal = frame.stack.isEmpty() || !frame.locals.isEmpty() && random.nextBoolean();
        List<int[]> types = isLocal ? frame.locals : frame.stack;
        String where = nameOf(which) + (isLocal ? " local " : " stack ");
        int way = random.nextInt(5);
        if (way == 0 && frame.form == MapFrame.Form.FULL) {
            types.add(random.nextInt(types.size() + 1), type());
            return where + "one more";
        }
        if (types.isEmpty()) {
            return null;
        }
        int place = random.nextInt(types.size());
        if (way == 1 && frame.form == MapFrame.Form.FULL) {
            types.remove(place);
            return where + place + " gone";
        }
        String before = typeName(types.get(place));
        types.set(place, type());
        return where + place + " " + before + " -> " + typeName(types.get(place));
    }
}
