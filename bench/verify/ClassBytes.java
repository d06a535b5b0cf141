import java.io.ByteArrayInputStream;
import java.io.ByteArrayOutputStream;
import java.io.DataInputStream;
import java.io.DataOutputStream;
import java.io.IOException;
import java.util.ArrayList;
import java.util.List;

/** A class file (JVMS §4.1): its methods apart, to be changed, and all before and behind them as it was. */
final class ClassBytes {
    /** The tags of the constants by index, and of each Utf8 its text. A constant that names others has their indices. */
    final int[] tags;
    final String[] texts;
    final int[] first;
    final int[] second;
    final byte[] before;
    final byte[] behind;
    final List<Method> methods = new ArrayList<>();
    final int thisClass;
    int major;

    /** One method (§4.6), with its code apart. */
    static final class Method {
        int flags;
        int name;
        int descriptor;
        Code code;
        /** Where `Code` stands among the attributes, and all other attributes as they were. */
        int place;
        final List<byte[]> others = new ArrayList<>();
    }

    ClassBytes(byte[] bytes) throws IOException {
        ByteArrayInputStream bare = new ByteArrayInputStream(bytes);
        DataInputStream in = new DataInputStream(bare);
        in.readInt();
        in.readUnsignedShort();
        major = in.readUnsignedShort();
        int count = in.readUnsignedShort();
        tags = new int[count];
        texts = new String[count];
        first = new int[count];
        second = new int[count];
        for (int index = 1; index < count; index++) {
            readConstant(in, index);
            index += tags[index] == 5 || tags[index] == 6 ? 1 : 0;
        }
        in.readUnsignedShort();
        thisClass = in.readUnsignedShort();
        in.readUnsignedShort();
        in.skipBytes(2 * in.readUnsignedShort());
        for (int fields = in.readUnsignedShort(); fields > 0; fields--) {
            in.skipBytes(6);
            for (int attributes = in.readUnsignedShort(); attributes > 0; attributes--) {
                readAttribute(in);
            }
        }
        before = new byte[bytes.length - bare.available()];
        System.arraycopy(bytes, 0, before, 0, before.length);
        for (int left = in.readUnsignedShort(); left > 0; left--) {
            methods.add(readMethod(in));
        }
        behind = in.readAllBytes();
    }

    private void readConstant(DataInputStream in, int index) throws IOException {
        tags[index] = in.readUnsignedByte();
        switch (tags[index]) {
            case 1 -> texts[index] = in.readUTF();
            case 3, 4 -> in.readInt();
            case 5, 6 -> in.readLong();
            case 7, 8, 16 -> first[index] = in.readUnsignedShort();
            case 15 -> in.skipBytes(3);
            default -> {
                first[index] = in.readUnsignedShort();
                second[index] = in.readUnsignedShort();
            }
        }
    }

    /** An attribute with its name and length. */
    private static byte[] readAttribute(DataInputStream in) throws IOException {
        int name = in.readUnsignedShort();
        int length = in.readInt();
        ByteArrayOutputStream kept = new ByteArrayOutputStream();
        DataOutputStream out = new DataOutputStream(kept);
        out.writeShort(name);
        out.writeInt(length);
        out.write(in.readNBytes(length));
        return kept.toByteArray();
    }

    private Method readMethod(DataInputStream in) throws IOException {
        Method method = new Method();
        method.flags = in.readUnsignedShort();
        method.name = in.readUnsignedShort();
        method.descriptor = in.readUnsignedShort();
        int count = in.readUnsignedShort();
        for (int place = 0; place < count; place++) {
            byte[] attribute = readAttribute(in);
            int name = (attribute[0] & 255) << 8 | attribute[1] & 255;
            if (texts[name].equals("Code")) {
                method.code = new Code(this, name, new DataInputStream(new ByteArrayInputStream(attribute, 6, attribute.length)));
                method.place = place;
            } else {
                method.others.add(attribute);
            }
        }
        return method;
    }

    byte[] bytes() throws IOException {
        ByteArrayOutputStream kept = new ByteArrayOutputStream();
        DataOutputStream out = new DataOutputStream(kept);
        out.write(before);
        out.writeShort(methods.size());
        for (Method method : methods) {
            out.writeShort(method.flags);
            out.writeShort(method.name);
            out.writeShort(method.descriptor);
            out.writeShort(method.others.size() + (method.code == null ? 0 : 1));
            for (int place = 0; place <= method.others.size(); place++) {
                if (method.code != null && place == method.place) {
                    method.code.write(out);
                }
                if (place < method.others.size()) {
                    out.write(method.others.get(place));
                }
            }
        }
        out.write(behind);
        byte[] bytes = kept.toByteArray();
        bytes[6] = (byte) (major >> 8);
        bytes[7] = (byte) major;
        return bytes;
    }

    String nameOfClass(int index) {
        return texts[first[index]];
    }

    String name() {
        return nameOfClass(thisClass);
    }

    String nameOf(Method method) {
        return texts[method.name] + texts[method.descriptor];
    }

    /** The indices of constants with this tag. */
    List<Integer> indices(int tag) {
        List<Integer> found = new ArrayList<>();
        for (int index = 1; index < tags.length; index++) {
            if (tags[index] == tag) {
                found.add(index);
            }
        }
        return found;
    }

    /** What a constant says, for people. */
    String say(int index) {
        return switch (index > 0 && index < tags.length ? tags[index] : 0) {
            case 1 -> texts[index];
            case 7, 8 -> texts[first[index]];
            case 9, 10, 11 -> nameOfClass(first[index]) + "." + texts[first[second[index]]] + texts[second[second[index]]];
            default -> "#" + index;
        };
    }
}
