import java.io.ByteArrayOutputStream;
import java.io.DataInputStream;
import java.io.DataOutputStream;
import java.io.IOException;
import java.util.ArrayList;
import java.util.List;

/** A `Code` attribute (JVMS §4.7.3). Its attributes but `StackMapTable` are left out. */
final class Code {
    final int attributeName;
    int maxStack;
    int maxLocals;
    byte[] code;
    /** Each is start, end, handler and catch type. */
    final List<int[]> handlers = new ArrayList<>();
    /** None where the attribute is missing. */
    List<MapFrame> frames;
    private int framesName;

    Code(ClassBytes file, int attributeName, DataInputStream in) throws IOException {
        this.attributeName = attributeName;
        maxStack = in.readUnsignedShort();
        maxLocals = in.readUnsignedShort();
        code = in.readNBytes(in.readInt());
        for (int left = in.readUnsignedShort(); left > 0; left--) {
            handlers.add(new int[] {in.readUnsignedShort(), in.readUnsignedShort(), in.readUnsignedShort(), in.readUnsignedShort()});
        }
        for (int left = in.readUnsignedShort(); left > 0; left--) {
            int name = in.readUnsignedShort();
            int length = in.readInt();
            if (file.texts[name].equals("StackMapTable")) {
                framesName = name;
                frames = MapFrame.readAll(in);
            } else {
                in.skipBytes(length);
            }
        }
    }

    void write(DataOutputStream out) throws IOException {
        ByteArrayOutputStream kept = new ByteArrayOutputStream();
        DataOutputStream body = new DataOutputStream(kept);
        body.writeShort(maxStack);
        body.writeShort(maxLocals);
        body.writeInt(code.length);
        body.write(code);
        body.writeShort(handlers.size());
        for (int[] handler : handlers) {
            for (int number : handler) {
                body.writeShort(number);
            }
        }
        body.writeShort(frames == null ? 0 : 1);
        if (frames != null) {
            body.writeShort(framesName);
            byte[] table = MapFrame.writeAll(frames);
            body.writeInt(table.length);
            body.write(table);
        }
        out.writeShort(attributeName);
        out.writeInt(kept.size());
        out.write(kept.toByteArray());
    }

    int u1(int place) {
        return code[place] & 255;
    }

    int s2(int place) {
        return (short) (u1(place) << 8 | u1(place + 1));
    }

    int u2(int place) {
        return s2(place) & 0xffff;
    }

    int s4(int place) {
        return u2(place) << 16 | u2(place + 2);
    }

    void set2(int place, int number) {
        code[place] = (byte) (number >> 8);
        code[place + 1] = (byte) number;
    }

    void set4(int place, int number) {
        set2(place, number >> 16);
        set2(place + 2, number);
    }

    /** The place behind the padding of a switch. */
    static int padded(int place) {
        return (place & ~3) + 4;
    }

    int length(int place) {
        int opcode = u1(place);
        int at = padded(place);
        return switch (opcode) {
            case 0xaa -> at + 12 + 4 * (s4(at + 8) - s4(at + 4) + 1) - place;
            case 0xab -> at + 8 + 8 * s4(at + 4) - place;
            case 0xc4 -> u1(place + 1) == 0x84 ? 6 : 4;
            default -> Opcodes.length(opcode);
        };
    }

    List<Integer> places() {
        List<Integer> places = new ArrayList<>();
        for (int place = 0; place < code.length; place += length(place)) {
            places.add(place);
        }
        return places;
    }

    /** Where a method's frames stand. */
    List<Integer> framePlaces() {
        List<Integer> places = new ArrayList<>();
        int place = -1;
        if (frames != null) {
            for (MapFrame frame : frames) {
                place += frame.delta + 1;
                places.add(place);
            }
        }
        return places;
    }

    /** Where an instruction may branch to. */
    List<Integer> targets(int place) {
        List<Integer> targets = new ArrayList<>();
        int opcode = u1(place);
        int at = padded(place);
        if (opcode >= 0x99 && opcode <= 0xa7 || opcode == 0xc6 || opcode == 0xc7) {
            targets.add(place + s2(place + 1));
        } else if (opcode == 0xaa || opcode == 0xab) {
            int count = opcode == 0xaa ? s4(at + 8) - s4(at + 4) + 1 : s4(at + 4);
            targets.add(place + s4(at));
            for (int i = 0; i < count; i++) {
                targets.add(place + s4(opcode == 0xaa ? at + 12 + 4 * i : at + 12 + 8 * i));
            }
        }
        return targets;
    }

    /** Whether an instruction leads to a place in the way of which HotSpot's message speaks. */
    boolean leads(int place, int to, String message) {
        if (message.contains("at branch target")) {
            return targets(place).contains(to);
        }
        if (message.contains("at exception handler")) {
            return handlers.stream().anyMatch(handler -> handler[0] <= place && place < handler[1] && handler[2] == to);
        }
        boolean isNext = message.contains("does not match stack map") || message.contains("falls through code end");
        return isNext && place + length(place) == to;
    }
}
