import java.io.IOException;

// Programs of a few steps, whose output is worked out by hand, and three classes that print what they read.
public class Rows {}

class Hello {
    public static void main(String[] args) { System.out.println("Hello"); }
}

class Empty {
    public static void main(String[] args) {}
}

class Hashed {
    public static void main(String[] args) {
        Object o = new Object();
        System.out.println(System.identityHashCode(o));
        System.gc();
        System.out.println(System.identityHashCode(o));
        String one = "equal", other = "equal";
        System.out.println(one == other);
    }
}

class Numbers {
    static int least = Integer.MIN_VALUE, none = -1;

    public static void main(String[] args) {
        try { System.out.println(1 / 0); } catch (ArithmeticException e) { System.out.println(e.getMessage()); }
        System.out.println(least / none); System.out.println(least % none);
        try { System.out.println(new int[none].length); } catch (NegativeArraySizeException e) { System.out.println(e.getClass().getName()); }
        Object text = "text";
        try { System.out.println((Integer) text); } catch (ClassCastException e) { System.out.println(e.getClass().getName()); }
        System.out.println("ab".hashCode());
    }
}

class Throwing {
    static void f() { g(); }
    static void g() { throw new RuntimeException("x"); }
    public static void main(String[] args) { f(); }
}

class Bad { static int x = 1 / 0; }

class Touching {
    public static void main(String[] args) {
        for (int i = 0; i < 2; i++) {
            try { System.out.println(Bad.x); } catch (Throwable e) { System.out.println(e.getClass().getName()); }
        }
    }
}

class Triple {
    public static void main(String[] args) throws IOException {
        for (int i = 0; i < 3; i++) { System.out.println(System.in.read()); }
    }
}

class Endless {
    static void f() { f(); }
    public static void main(String[] args) {
        try { f(); } catch (StackOverflowError e) { System.out.println("deep"); }
    }
}

class Exits {
    public static void main(String[] args) { System.exit(Integer.parseInt(args[0])); }
}

class Choice {
    static int of(String text) {
        switch (text) {
            case "ab": return 1;
            default: return 0;
        }
    }
    public static void main(String[] args) { System.out.println(of(args[0])); }
}

enum Color { RED, GREEN }

class Colors {
    public static void main(String[] args) {
        System.out.println(Color.valueOf("GREEN").ordinal());
        System.out.println(Color.values().length);
    }
}

class Echo {
    public static void main(String[] args) throws IOException {
        EchoFrom from = new EchoFrom();
        EchoTo to = new EchoTo();
        for (int next = from.next(); next >= 0; next = from.next()) { to.take(next); }
        to.end();
    }
}

class EchoFrom {
    int next() throws IOException { return System.in.read(); }
}

class EchoTo {
    int count;
    void take(int unit) { System.out.print((char) unit); count++; }
    void end() { System.out.println(count); }
}
