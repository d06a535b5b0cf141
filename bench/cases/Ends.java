// Natives that find a constant of an enum, ask for a collection, and end the run, and what the first throws. The words say the status.
public class Ends {
    enum Colour { RED, GREEN, BLUE }

    // each constant has a class of its own, and making them prints
    enum Sign {
        PLUS("+") { int of(int number) { return number; } },
        MINUS("-") { int of(int number) { return -number; } };

        static { System.out.print("signs "); }

        final String text;

        Sign(String text) { this.text = text; System.out.print(text); }

        abstract int of(int number);
    }

    enum Bad {
        ONE;

        static { if (Ends.fails) { throw new IllegalStateException(); } }
    }

    enum None { }

    static boolean fails = true;

    static void find(String name) {
        try { System.out.print(Colour.valueOf(name).ordinal()); } catch (RuntimeException e) { thrown(e); }
    }

    static void sign(String name) {
        try { Sign sign = Enum.valueOf(Sign.class, name); System.out.print(sign.text + sign.of(3)); } catch (RuntimeException e) { thrown(e); }
    }

    static void bad() {
        try { System.out.print(Enum.valueOf(Bad.class, "ONE").ordinal()); }
        catch (ExceptionInInitializerError e) { System.out.print("initializer "); }
        catch (NoClassDefFoundError e) { System.out.print("definition "); }
    }

    static void thrown(RuntimeException e) {
        System.out.print(e instanceof NullPointerException ? "null " : e instanceof IllegalArgumentException ? "argument " : "other ");
    }

    public static void main(String[] args) {
        find("RED"); find("BLUE"); find("GREEN"); find("blue"); find(""); find("BLUE "); find(null); System.out.println();
        sign("MINUS"); sign("PLUS"); sign("TIMES"); sign(null); System.out.println();
        System.out.println(Colour.valueOf(new StringBuilder("GR").append("EEN").toString()) == Colour.GREEN);
        try { System.out.print(None.valueOf("ONE").ordinal()); } catch (RuntimeException e) { thrown(e); }
        try { Enum.valueOf((Class<Colour>) null, "RED"); } catch (RuntimeException e) { thrown(e); }
        System.out.println();
        bad(); bad(); System.out.println();
        String kept = "kept";
        for (int i = 0; i < 3; i++) { kept += i; System.gc(); }
        System.out.println(kept);
        try {
            System.out.print("out ");
            if (args.length > 0) { System.exit(Integer.parseInt(args[0])); }
            System.out.println("no status");
        } finally {
            System.out.println("behind");
        }
    }
}
