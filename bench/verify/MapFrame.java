import java.io.ByteArrayOutputStream;
import java.io.DataInputStream;
import java.io.DataOutputStream;
import java.io.IOException;
import java.util.ArrayList;
import java.util.List;

/** A frame of a `StackMapTable` (JVMS §4.7.4). Each type is a tag and its index or place. */
final class MapFrame {
    enum Form { SAME, ITEM, CHOP, APPEND, FULL }

    Form form;
    int delta;
    /** How many local variables a chop takes off. */
    int chopped;
    final List<int[]> locals = new ArrayList<>();
    final List<int[]> stack = new ArrayList<>();

    MapFrame copy() {
        MapFrame copy = new MapFrame();
        copy.form = form;
        copy.delta = delta;
        copy.chopped = chopped;
        locals.forEach(type -> copy.locals.add(type.clone()));
        stack.forEach(type -> copy.stack.add(type.clone()));
        return copy;
    }

    static List<MapFrame> readAll(DataInputStream in) throws IOException {
        List<MapFrame> frames = new ArrayList<>();
        for (int left = in.readUnsignedShort(); left > 0; left--) {
            frames.add(read(in));
        }
        return frames;
    }

    private static MapFrame read(DataInputStream in) throws IOException {
        MapFrame frame = new MapFrame();
        int kind = in.readUnsignedByte();
        frame.form = kind < 64 || kind == 251 ? Form.SAME
            : kind < 248 ? Form.ITEM : kind < 251 ? Form.CHOP : kind < 255 ? Form.APPEND : Form.FULL;
        frame.delta = kind < 64 ? kind : kind < 128 ? kind - 64 : in.readUnsignedShort();
        frame.chopped = 251 - kind;
        int locals = frame.form == Form.APPEND ? kind - 251 : frame.form == Form.FULL ? in.readUnsignedShort() : 0;
        readTypes(in, locals, frame.locals);
        readTypes(in, frame.form == Form.ITEM ? 1 : frame.form == Form.FULL ? in.readUnsignedShort() : 0, frame.stack);
        return frame;
    }

    private static void readTypes(DataInputStream in, int count, List<int[]> types) throws IOException {
        for (int left = count; left > 0; left--) {
            int tag = in.readUnsignedByte();
            types.add(new int[] {tag, tag >= 7 ? in.readUnsignedShort() : 0});
        }
    }

    static byte[] writeAll(List<MapFrame> frames) throws IOException {
        ByteArrayOutputStream kept = new ByteArrayOutputStream();
        DataOutputStream out = new DataOutputStream(kept);
        out.writeShort(frames.size());
        for (MapFrame frame : frames) {
            frame.write(out);
        }
        return kept.toByteArray();
    }

    private void write(DataOutputStream out) throws IOException {
        int distance = delta & 0xffff;
        boolean small = distance < 64 && (form == Form.SAME || form == Form.ITEM);
        out.writeByte(switch (form) {
            case SAME -> small ? distance : 251;
            case ITEM -> small ? 64 + distance : 247;
            case CHOP -> 251 - chopped;
            case APPEND -> 251 + locals.size();
            case FULL -> 255;
        });
        if (!small) {
            out.writeShort(distance);
        }
        if (form == Form.FULL) {
            out.writeShort(locals.size());
        }
        writeTypes(out, locals);
        if (form == Form.FULL) {
            out.writeShort(stack.size());
        }
        writeTypes(out, stack);
    }

    private static void writeTypes(DataOutputStream out, List<int[]> types) throws IOException {
        for (int[] type : types) {
            out.writeByte(type[0]);
            if (type[0] >= 7) {
                out.writeShort(type[1]);
            }
        }
    }
}
