public class Implements {
    static void call(ImI i) { try { System.out.println(i.f()); } catch (AbstractMethodError e) { System.out.println("abstract"); } catch (IncompatibleClassChangeError e) { System.out.println("change"); } }
    public static void main(String[] args) { call(new ImA()); call(new ImB()); ImI none = null; try { call(none); } catch (NullPointerException e) { System.out.println("null"); } }
}
interface ImI { int f(); }
class ImA implements ImI { public int f() { return 1; } }
class ImB implements ImI { public int f() { return 2; } }
