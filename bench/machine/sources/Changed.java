// differs: where two defaults conflict HotSpot throws AbstractMethodError at invokeinterface, where JVMS 6.5 has IncompatibleClassChangeError
// expected: "change\nB.f\nchange\nB.f\nI.g\nB>I.g\nI.g\nB>I.g\n=> returned"
public class Changed {
    static void t(int w, ChI i, ChA a) { try { System.out.println(w == 0 ? i.f() : w == 1 ? a.f() : w == 2 ? i.g() : a.g()); } catch (AbstractMethodError e) { System.out.println("abstract"); } catch (IncompatibleClassChangeError e) { System.out.println("change"); } }
    public static void main(String[] args) { ChA a = new ChA(); ChB b = new ChB(); for (int w = 0; w < 4; w++) { t(w, a, a); t(w, b, b); } }
}
interface ChI { default String f() { return "I.f"; } default String g() { return "I.g"; } }
interface ChK {}
class ChA implements ChI { }
class ChB extends ChA { public String f() { return "B.f"; } public String g() { return "B>" + super.g(); } }
