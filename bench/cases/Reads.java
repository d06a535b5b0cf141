import java.io.IOException;
import java.io.InputStream;

// Natives that read the input, and what they throw.
public class Reads {
    static void range(InputStream in, byte[] bytes, int from, int count) throws IOException {
        try {
            int read = in.read(bytes, from, count);
            System.out.print(read);
            System.out.print(':');
            for (int i = 0; i < bytes.length; i++) { System.out.print(bytes[i]); System.out.print(' '); }
        } catch (NullPointerException e) { System.out.print("null "); } catch (IndexOutOfBoundsException e) { System.out.print("index "); }
    }

    public static void main(String[] args) throws IOException {
        InputStream in = System.in;
        System.out.print(in.read()); System.out.print(' '); System.out.println(in.read());
        byte[] bytes = new byte[6];
        range(in, bytes, 0, 0); range(in, bytes, 6, 0); System.out.println();
        range(in, bytes, 1, 3); System.out.println();
        range(in, null, 0, 1); range(in, bytes, -1, 1); range(in, bytes, 0, -1); range(in, bytes, 0, 7); range(in, bytes, 7, 0); range(in, bytes, 6, 1); range(in, bytes, 2147483647, 2147483647); range(in, null, -1, -1); System.out.println();
        System.out.println(in.read());
        int sum = 0, count = 0, next = in.read();
        while (next != 10) { sum += next; count++; next = in.read(); }
        System.out.print(count); System.out.print(' '); System.out.println(sum);
        byte[] large = new byte[3000];
        int read = in.read(large, 0, 3000), total = 0;
        for (int i = 0; i < read; i++) { total += large[i]; }
        System.out.print(read); System.out.print(' '); System.out.println(total);
        System.out.print(in.read()); range(in, bytes, 0, 3); range(in, bytes, 0, 0); System.out.println(in.read());
    }
}
