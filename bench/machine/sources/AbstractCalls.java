public class AbstractCalls {
    static void t(int w, AcI i, AcA a) { try { System.out.println(w == 0 ? i.f() : a.g()); } catch (AbstractMethodError e) { System.out.println("abstract"); } catch (IncompatibleClassChangeError e) { System.out.println("change"); } }
    public static void main(String[] args) { AcB b = new AcB(); t(0, b, b); t(1, b, b); AcC c = new AcC(); t(0, c, c); t(1, c, c); try { System.out.println(c.f()); } catch (LinkageError e) { System.out.println(e.getClass().getName()); } try { System.out.println(c.up()); } catch (LinkageError e) { System.out.println(e.getClass().getName()); } AcI none = null; try { none.f(); } catch (NullPointerException e) { System.out.println("null"); } }
}
interface AcI { int f(); }
abstract class AcA { int g() { return 1; } }
class AcB extends AcA implements AcI { public int f() { return 2; } int g() { return 3; } }
class AcC extends AcB { int up() { return super.g() * 10; } }
