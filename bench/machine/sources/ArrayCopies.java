// arguments: 0 10
// also: 10 20
// also: 20 25
// also: 25 30
public class ArrayCopies {
    static void show(int[] a) { for (int x : a) { System.out.print(x); System.out.print(','); } System.out.println(); }
    static void f(int w) {
        int[] a = { 0, 1, 2, 3, 4, 5, 6, 7 }; Object[] o = { "a", "b", 3, "d" }; String[] s = new String[4]; long[] l = { 1, 2 };
        try {
            switch (w) {
                case 0: System.arraycopy(a, 0, a, 2, 5); break; case 1: System.arraycopy(a, 3, a, 0, 5); break; case 2: System.arraycopy(a, 8, a, 8, 0); break; case 3: System.arraycopy(a, 0, new int[3], 0, 4); break; case 4: System.arraycopy(a, -1, a, 0, 1); break; case 5: System.arraycopy(a, 0, a, -1, 1); break; case 6: System.arraycopy(a, 0, a, 0, -1); break; case 7: System.arraycopy(a, 5, a, 0, 4); break; case 8: System.arraycopy(a, 9, a, 0, 0); break; case 9: System.arraycopy(a, 0, a, Integer.MAX_VALUE, 1); break; case 10: System.arraycopy(a, 1, a, 1, Integer.MAX_VALUE); break;
                case 11: System.arraycopy(null, 0, a, 0, 1); break; case 12: System.arraycopy(a, 0, null, 0, 1); break; case 13: System.arraycopy("x", 0, a, 0, 1); break; case 14: System.arraycopy(a, 0, "x", 0, 1); break; case 15: System.arraycopy(a, 0, l, 0, 1); break; case 16: System.arraycopy(a, 0, o, 0, 1); break; case 17: System.arraycopy(o, 0, a, 0, 1); break;
                case 18: System.arraycopy(o, 0, s, 0, 2); break; case 19: System.arraycopy(o, 0, s, 0, 4); break; case 20: System.arraycopy(o, 2, s, 1, 1); break; case 21: System.arraycopy(s, 0, o, 1, 3); break; case 22: System.arraycopy(o, 0, o, 1, 3); break; case 23: System.arraycopy(l, 0, l, 1, 1); break; case 24: System.arraycopy(a, -1, l, 0, 1); break; case 25: System.arraycopy(new byte[1], 0, new boolean[1], 0, 1); break; case 26: System.arraycopy(new int[2][2], 0, o, 0, 2); break; case 27: System.arraycopy(o, 0, new int[2][2], 0, 1); break; case 28: System.arraycopy(new char[] { 'x' }, 0, new short[1], 0, 0); break; case 29: System.arraycopy(o, 9, s, 0, 1); break;
            }
            System.out.print("fine ");
        } catch (ArrayStoreException e) { System.out.print("store "); } catch (ArrayIndexOutOfBoundsException e) { System.out.print("index "); } catch (NullPointerException e) { System.out.print("null "); }
        if (w < 18) show(a); else { for (Object x : o) System.out.print(x instanceof int[] ? "[]" : x); for (String x : s) System.out.print(x); System.out.println(l[1]); }
    }
    public static void main(String[] args) { for (int w = Integer.parseInt(args[0]); w < Integer.parseInt(args[1]); w++) f(w); }
}
