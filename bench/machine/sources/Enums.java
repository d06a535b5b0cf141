// arguments: 0
// also: 1
// also: 2
public class Enums {
    enum Color { RED, GREEN, BLUE; Color next() { return values()[(ordinal() + 1) % values().length]; } }
    enum Op { PLUS("+") { int apply(int a, int b) { return a + b; } }, TIMES("*") { int apply(int a, int b) { return a * b; } public String toString() { return "times"; } }; final String sign; Op(String s) { sign = s; } abstract int apply(int a, int b); static final int COUNT = values().length; }
    enum Lazy { ONE, TWO; static { System.out.println("Lazy ready"); } } enum Empty {} enum Bad { A; static { if (A.ordinal() == 0) throw new IllegalStateException(); } }
    static int sw(Color c) { switch (c) { case RED: return 1; case BLUE: return 3; default: return 0; } }
    static void find(Class c, String n) { try { System.out.println(Enum.valueOf(c, n)); } catch (IllegalArgumentException e) { System.out.println("unknown"); } catch (NullPointerException e) { System.out.println("null"); } catch (Error e) { System.out.println(e.getClass().getName()); } }
    public static void main(String[] args) {
        int part = Integer.parseInt(args[0]); if (part == 0) {
        for (Color c : Color.values()) { System.out.println(c); System.out.println(c.ordinal()); System.out.println(c.name()); System.out.println(c.next()); System.out.println(sw(c)); }
        for (Op o : Op.values()) { System.out.println(o.apply(3, 4)); System.out.println(o.sign); System.out.println(o); System.out.println(o.name()); System.out.println(o.getClass() == Op.class); System.out.println(o.getClass().getName()); } System.out.println(Op.COUNT); System.out.println(Empty.values().length);
        }
        if (part == 1) {
        System.out.println(Color.valueOf("GREEN")); System.out.println(Color.valueOf("RED") == Color.RED); try { Color.valueOf("PINK"); } catch (IllegalArgumentException e) { System.out.println("unknown"); } try { Color.valueOf(null); } catch (NullPointerException e) { System.out.println("null"); }
        find(Lazy.class, "TWO"); find(Color.class, "red"); find(Color.class, ""); find(Color.class, "$VALUES"); find(Op.class, "TIMES"); find(Op.class, "COUNT"); find(Op.class, "sign"); find(null, "RED"); find(Color.class, null); find(Empty.class, "X"); find(Bad.class, "A"); find(Bad.class, "A");
        }
        if (part == 2) {
        System.out.println(Color.RED.compareTo(Color.BLUE)); System.out.println(((Comparable<Color>) Color.BLUE).compareTo(Color.RED)); System.out.println(Color.RED.equals(Color.RED)); System.out.println(Color.RED.equals(Color.BLUE)); System.out.println(Color.RED.equals(null)); System.out.println(Color.RED.hashCode() == Color.RED.hashCode()); System.out.println(Color.values() == Color.values());
        try { Color.RED.compareTo(null); } catch (NullPointerException e) { System.out.println("null"); } Color nil = null; try { sw(nil); } catch (NullPointerException e) { System.out.println("null"); } try { nil.equals(nil); } catch (NullPointerException e) { System.out.println("null"); } try { nil.compareTo(Color.RED); } catch (NullPointerException e) { System.out.println("null"); } try { nil.hashCode(); } catch (NullPointerException e) { System.out.println("null"); } try { nil.name(); } catch (NullPointerException e) { System.out.println("null"); }
        try { ((Comparable) Color.RED).compareTo("x"); } catch (ClassCastException e) { System.out.println("cast"); }
        }
    }
}
