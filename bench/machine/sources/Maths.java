// arguments: 0 2
// also: 2 4
// also: 4 6
// also: 0 0 longs
public class Maths {
    static void i(int i) { System.out.println(i); } static void l(long i) { System.out.println(i); }
    public static void main(String[] args) {
        int[] v = { 7, -7, 2, -2, Integer.MIN_VALUE, -1 }; for (int k = Integer.parseInt(args[0]); k < Integer.parseInt(args[1]); k++) { int a = v[k]; i(Math.abs(a)); for (int b : v) { i(Math.floorDiv(a, b)); i(Math.floorMod(a, b)); i(Math.max(a, b)); i(Math.min(a, b)); } }
        if (args.length < 3) return;
        long[] w = { 7, -3, Long.MIN_VALUE, -1 }; for (long a : w) { l(Math.abs(a)); for (long b : w) { l(Math.floorDiv(a, b)); l(Math.floorMod(a, b)); l(Math.max(a, b)); l(Math.min(a, b)); } } l(Math.floorDiv(0L, 5L)); i(Math.floorMod(0, -5));
        try { Math.floorDiv(1, 0); } catch (ArithmeticException e) { System.out.println(e.getMessage()); } try { Math.floorMod(1, 0); } catch (ArithmeticException e) { System.out.println(e.getMessage()); } try { Math.floorDiv(1L, 0L); } catch (ArithmeticException e) { System.out.println(e.getMessage()); } try { Math.floorMod(1L, 0L); } catch (ArithmeticException e) { System.out.println(e.getMessage()); }
    }
}
