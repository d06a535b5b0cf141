/** When classes are initialised, in which order, and what comes of those that fail. The main class and those above it begin. */
public class Initialising extends Above {
    static int begun = say("main class", 1);

    static {
        say("its block", begun);
    }

    // Cycles: of two classes that need each other, and of a superclass that needs the class below it.
    static class One {
        static int number = say("One", Other.number + 1);
    }

    static class Other {
        static int number = say("Other", One.number + 10);
    }

    static class Parent {
        static int early = say("Parent", Child.early);
        static int late = 5;
        static Object child = new Child(late);
    }

    static class Child extends Parent {
        static int early = say("Child", late + 7);

        Child(int number) {
            say("a Child", number + early);
        }
    }

    static class Itself {
        static final Itself first = new Itself();
        static int count = 10;
        int number = count++;

        Itself() {
            say("Itself", count);
        }
    }

    // Parents that fail: the class below fails with them, and at its second use isn't found, as the parent from then on.
    static class Fails {
        static int number = say("Fails", 1) / (begun - 1);
        static int never = say("never", 99);
    }

    static class Fallen extends Fails {
        static int own = say("never", 98);
    }

    static class FallenToo extends Fallen {
        static int own = say("never", 97);

        static void call() {
        }
    }

    interface FailsToo {
        int number = 1 / (say("FailsToo", begun) - 1);

        default void some() {
        }
    }

    static class ByInterface extends Plain implements FailsToo {
        static int own = say("never", 96);
    }

    static class Plain {
        static int plain = say("Plain", 3);
    }

    // Interfaces: before a class those of its superinterfaces that have a default, each behind its own, and no others.
    interface Bare {
        int bare = say("Bare", 20);

        int some();
    }

    interface WithDefault extends Bare {
        int first = say("WithDefault", 21);

        default int some() {
            return 22;
        }
    }

    interface WithStatic {
        int number = say("WithStatic", 23);

        static int some() {
            return 24;
        }
    }

    interface Lower extends WithDefault, WithStatic {
        int lower = say("Lower", 25);

        default int more() {
            return 26;
        }
    }

    static class Implements extends Plain implements WithStatic, Lower, Bare {
        static int own = say("Implements", 27);
    }

    interface Alone extends WithDefault {
        int alone = say("Alone", 28);

        default void none() {
        }
    }

    // Constants are compiled into the code that names them, and need no initialisation; what is no constant does.
    static class Constants {
        static final int NUMBER = 30;
        static final long LARGE = 1L << 33;
        static final String TEXT = "constant";
        static final boolean TRUE = NUMBER > 3;
        static final int made = say("Constants", NUMBER);
        static final String none = null;
    }

    // By the name of a class below only the class is initialised that declares what is named.
    static class Declares {
        static int number = say("Declares", 40);

        static int call() {
            return number + 1;
        }
    }

    static class Names extends Declares {
        static int own = say("Names", 43);
    }

    static class SetAlone {
        static int number;

        static {
            say("SetAlone", number);
        }
    }

    static class SetBelow extends SetAlone {
        static int own = say("SetBelow", 45);
    }

    // Arrays, casts, tests and variables initialise nothing.
    static class Unused {
        static int number = say("never", 95);
    }

    // An enum's constants come first, in their order, and then its other fields.
    enum Suit {
        CLUBS(51), HEARTS(52) {
            int worth() {
                return super.worth() + say("worth", number);
            }
        }, SPADES(53);

        static int made = say("made", 3);
        final int number;

        static {
            say("Suit", made + SPADES.number);
        }

        Suit(int number) {
            this.number = number;
            System.out.print(name());
            say(" constant", ordinal());
            say("made so far", made());
        }

        static int made() {
            return made;
        }

        int worth() {
            return 10 * number;
        }
    }

    // What is evaluated first: the arguments of a call and what is put come before the class, and an object's class before them.
    static class Asked {
        int number;

        static {
            say("Asked", 60);
        }

        Asked(int number) {
            this.number = number;
        }

        static int call(int number) {
            return number;
        }
    }

    static class Put {
        static int number = say("Put", 61);
    }

    static class Called {
        static {
            say("Called", 62);
        }

        static int call(int number) {
            return number;
        }
    }

    static void cycles() {
        say("one", One.number);
        say("other", Other.number);
        say("child", Child.early);
        say("parent", Parent.early);
        say("itself", Itself.first.number);
        say("count", Itself.count);
    }

    static int use(int which) {
        switch (which) {
            case 0:
                return Fallen.own;
            case 1:
                return Fallen.own;
            case 2:
                return Fails.number;
            case 3:
                Fails.number = 5;
                return 94;
            case 4:
                FallenToo.call();
                return 93;
            case 5:
                return new FallenToo() == null ? 92 : 91;
            case 6:
                return ByInterface.own;
            case 7:
                return new ByInterface() == null ? 90 : 89;
            default:
                return ByInterface.number;
        }
    }

    static void fails() {
        for (int which = 0; which < 9; which++) {
            try {
                say("never", use(which));
            } catch (ExceptionInInitializerError error) {
                say(error.getCause().getMessage(), which);
            } catch (NoClassDefFoundError error) {
                say("not found", which);
            }
        }
        say("plain", ByInterface.plain);
    }

    static void interfaces() {
        say("some", WithStatic.some());
        say("implements", Implements.own);
        say("bare", Implements.bare);
        say("lower", Lower.lower);
        say("first", Alone.first);
        say("alone", Alone.alone);
        say("by an object", new Implements().some());
    }

    static void constants() {
        say("number", Constants.NUMBER);
        System.out.println(Constants.LARGE);
        System.out.println(Constants.TEXT);
        System.out.println(Constants.TRUE);
        System.out.println(Constants.none);
        say("made", Constants.made);
    }

    static void declares() {
        say("number", Names.number);
        say("call", Names.call());
        SetBelow.number = 44;
        say("set", SetBelow.number);
        say("own", SetBelow.own);
        Object unused = new Unused[2][3];
        System.out.println(unused instanceof Unused[]);
        Unused none = (Unused) ((Unused[][]) unused)[1][2];
        System.out.println(none instanceof Unused);
    }

    static void order() {
        say("asked", new Asked(say("argument", 63)).number);
        Put.number = say("put", 64);
        say("put", Put.number);
        say("called", Called.call(say("argument", 65)));
    }

    static void suits() {
        say("worth", Suit.HEARTS.worth());
        say("worth", Suit.SPADES.worth());
        say(Suit.CLUBS.name(), Suit.CLUBS.ordinal());
    }

    public static void main(String[] arguments) {
        say("main", begun);
        cycles();
        fails();
        interfaces();
        constants();
        declares();
        order();
        suits();
    }
}

class Above implements AboveAll {
    static int above = say("above", 2);

    static int say(String what, int number) {
        System.out.print(what);
        System.out.print(' ');
        System.out.println(number);
        return number;
    }
}

interface AboveAll {
    int all = Above.say("above all", 0);

    default void some() {
    }
}
