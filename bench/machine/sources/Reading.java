// input: "ab\ncd é €\x00\x7f the rest of it"
public class Reading {
    public static void main(String[] args) throws java.io.IOException {
        java.io.InputStream in = System.in; System.out.println(in.read()); System.out.println(in.read()); System.out.println(in.read()); byte[] b = new byte[6]; System.out.println(in.read(b, 1, 4)); for (byte x : b) System.out.println(x); System.out.println(in.read(b, 6, 0)); System.out.println(in.read(b, 0, 0)); System.out.println(in.read(b)); for (byte x : b) System.out.println(x);
        for (int i = 0; i < 8; i++) try { switch (i) { case 0: in.read(b, -1, 1); break; case 1: in.read(b, 0, -1); break; case 2: in.read(b, 0, 7); break; case 3: in.read(b, 7, 0); break; case 4: in.read(null, 0, 1); break; case 5: in.read(null); break; case 6: in.read(b, Integer.MAX_VALUE, 1); break; case 7: in.read(b, 1, Integer.MAX_VALUE); break; } System.out.println("fine"); } catch (IndexOutOfBoundsException e) { System.out.println("index"); } catch (NullPointerException e) { System.out.println("null"); }
        byte[] big = new byte[100]; System.out.println(in.read(big, 10, 90)); System.out.println(big[10]); System.out.println(big[25]); System.out.println(in.read()); System.out.println(in.read(b, 0, 1)); System.out.println(in.read(b, 0, 0)); System.out.println(in.read(b)); System.out.println(in.read()); java.io.InputStream n = null; try { n.read(); } catch (NullPointerException e) { System.out.println("null"); } try { n.read(b, 0, 1); } catch (NullPointerException e) { System.out.println("null"); }
    }
}
