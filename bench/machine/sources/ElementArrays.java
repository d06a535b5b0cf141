public class ElementArrays {
    public static void main(String[] args) {
        byte[] b = new byte[3]; b[0] = -128; b[1] = (byte) 200; b[2]++;
        short[] s = new short[3]; s[0] = -32768; s[1] = (short) 40000; s[2]--;
        char[] c = new char[3]; c[0] = 'x'; c[1] = '\uffff'; c[2] += 66;
        boolean[] z = new boolean[3]; z[0] = true; z[1] = z[0] & !z[2]; z[2] ^= true;
        long[] l = new long[3]; l[0] = Long.MIN_VALUE; l[1]++; l[2] -= 5L;
        Object[] o = new Object[3]; o[0] = "s"; o[1] = o; o[2] = null; String[][] t = new String[2][]; t[1] = new String[] { "q", null };
        for (int i = 0; i < 3; i++) { System.out.println(b[i]); System.out.println(s[i]); System.out.println(c[i] + 0); System.out.println(z[i]); System.out.println(l[i]); System.out.println(o[i] == null); }
        System.out.println(c[2]); System.out.println(t[0] == null); System.out.println(t[1][0]); System.out.println(t[1][1]);
        System.out.println(b.getClass().getName()); System.out.println(s.getClass().getName()); System.out.println(c.getClass().getName()); System.out.println(z.getClass().getName());
        System.out.println(l.getClass().getName()); System.out.println(o.getClass().getName()); System.out.println(t.getClass().getName()); System.out.println(t[1].getClass().getName());
        System.out.println(b.length + s.length + c.length + z.length + l.length + o.length + t.length);
    }
}
