// arguments: 0 6
// also: 6 12
// also: 12 16
// also: 16 28
public class ArrayFaults {
    static int turn(String s) { System.out.print(s); return 1; }
    static int[] nothing; static Object[] objects = new String[2];
    static void fault(int which, int i) {
        int[] a = new int[2]; byte[] b = new byte[2]; char[] c = new char[2]; short[] s = new short[2]; boolean[] z = new boolean[2]; long[] l = new long[2];
        try {
            switch (which) {
                case 0: a[i] = 1; break; case 1: System.out.println(a[i]); break; case 2: b[i] = 1; break; case 3: System.out.println(b[i]); break;
                case 4: c[i] = 1; break; case 5: System.out.println(c[i]); break; case 6: s[i] = 1; break; case 7: System.out.println(s[i]); break;
                case 8: z[i] = true; break; case 9: System.out.println(z[i]); break; case 10: l[i] = 1; break; case 11: System.out.println(l[i]); break;
                case 12: objects[i] = "x"; break; case 13: System.out.println(objects[i]); break; case 14: objects[0] = new Object(); break;
                case 15: objects[i] = new Object(); break; case 16: nothing[turn("i")] = turn("v"); break; case 17: System.out.println(nothing[turn("j")]); break;
                case 18: System.out.println(nothing.length); break; case 19: a = new int[i - 3]; break; case 20: objects = new Object[i - 3]; break;
                case 21: Object o = new int[2][i - 3]; break; case 22: o = new int[i - 3][0]; break; case 23: o = new int[0][i - 3]; break;
                case 24: o = new int[-1][-2][turn("d")]; break; case 25: objects[0] = null; break;
                case 26: ((Object[]) null)[0] = null; break; case 27: Object[][] p = new String[1][1]; p[0] = new Object[1]; break;
            }
            System.out.println("fine");
        } catch (ArrayIndexOutOfBoundsException e) { System.out.println("index"); } catch (ArrayStoreException e) { System.out.println("store");
        } catch (NullPointerException e) { System.out.println("null"); } catch (NegativeArraySizeException e) { System.out.println("negative"); }
    }
    public static void main(String[] args) { int end = Integer.parseInt(args[1]); for (int w = Integer.parseInt(args[0]); w < end; w++) { fault(w, 2); if (w < 16) { fault(w, -1); fault(w, 1); } } }
}
