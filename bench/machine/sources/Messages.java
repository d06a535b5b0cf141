// differs: what the machine and the library's natives throw has no message, but for a division by zero
// expected: "null\nnull\nnull\nnull\nnull\nnull\nnull\nnull\n/ by zero\n=> returned"
public class Messages {
    static class Fails { static int x = 1; static { if (x == 1) throw new IllegalStateException("m"); } }
    static void f(int w) throws Exception { Object o = "s"; int[] a = new int[1]; switch (w) { case 0: a[1] = 0; case 1: ((String) null).length(); case 2: Integer i = (Integer) o; case 3: ((Object[]) new String[1])[0] = 1; case 4: a = new int[-1]; case 5: "abc".charAt(5); case 6: Integer.parseInt("x"); case 7: Fails.x = 2; case 8: a[0] /= a[0]; } }
    public static void main(String[] args) { try { f(7); } catch (Throwable t) { } for (int w = 0; w < 9; w++) try { f(w); } catch (Throwable t) { System.out.println(t.getMessage()); } }
}
