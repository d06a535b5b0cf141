public class Initialisation {
    static void say(String s) { System.out.println(s); } static int say(String s, int i) { System.out.println(s); return i; }
    static class A { static int a = say("A", 1); static { say("A block"); } static void f() {} }
    static class B extends A { static int b = say("B", 2); static final int CONST = 5; static final String TEXT = "text"; static final Integer BOXED = say("BOXED", 6); }
    interface I { int i = say("I", 3); } interface J extends I { int j = say("J", 4); default void d() {} } interface P extends I { int p = say("P", 41); }
    static class C implements J, P { static int c = say("C", 5); }
    static class D extends C { static { say("D"); } }
    static class E { static E e = new E(); static int x = 10; int y = x; static int z = e.y; E() { x++; } }
    static class X { static int x = Y.y + 1; } static class Y { static int y = X.x + 1; }
    static class ArrayOnly { static { say("never"); } } static class Sub extends A { static { say("Sub"); } }
    public static void main(String[] args) {
        say("main"); say(B.TEXT + B.CONST); ArrayOnly[] none = new ArrayOnly[2]; ArrayOnly nil = (ArrayOnly) none[0]; say("" + (nil instanceof ArrayOnly)); Object k = ArrayOnly.class;
        say("sub"); Sub.f(); System.out.println(Sub.a); say("b"); System.out.println(B.b); System.out.println(B.BOXED);
        say("d"); new D(); System.out.println(D.c); say("p"); System.out.println(P.p); System.out.println(C.j);
        System.out.println(E.x); System.out.println(E.z); System.out.println(X.x); System.out.println(Y.y); A.a = 7; System.out.println(B.a);
    }
}
