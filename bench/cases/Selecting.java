/**
 * Which method a call runs. Each class's and interface's methods give numbers of their own. `Selecting.with` has the classes of two
 * packages, and `Selecting.later` the classes that are compiled behind the others and take the place of those of their names.
 */
public class Selecting {
    interface Top {
        default int diamond() {
            return 1;
        }

        default int above() {
            return 10 * diamond();
        }

        int own();
    }

    interface Left extends Top {
        default int diamond() {
            return 2;
        }

        default int over() {
            return 20;
        }

        // The default of the interface above, by its name.
        default int above() {
            return 1 + Top.super.above();
        }

        default int twice() {
            return 2 * own();
        }
    }

    interface Right extends Top {
        default int right() {
            return 30 + own();
        }
    }

    interface Other {
        default int over() {
            return 40;
        }

        default int twice() {
            return 4;
        }
    }

    static class Base {
        // One name, and private in one class: it is not selected on objects of a class below, and overrides nothing.
        private int hidden() {
            return 100;
        }

        int asks() {
            return hidden();
        }

        public int over() {
            return 50;
        }

        int far() {
            return 60;
        }
    }

    // The most specific default of a diamond, also where the interface above is named behind it. A superclass's method stands before
    // the default of a superinterface.
    static class Both extends Base implements Left, Right {
        private int hidden() {
            return 200;
        }

        int asksBoth() {
            return hidden();
        }

        public int own() {
            return 3;
        }
    }

    static class Turned extends Base implements Right, Left {
        public int own() {
            return 4;
        }

        int far() {
            return 1 + super.far();
        }
    }

    // Defaults that a class overrides, and calls by the names of its own superinterfaces.
    static class Under extends Base implements Left, Other, Right {
        public int own() {
            return 5;
        }

        public int hidden() {
            return 300;
        }

        public int over() {
            return 1000 * Left.super.over() + 10 * Other.super.over() + super.over() / 50;
        }

        public int twice() {
            return 10 * Left.super.twice() + Other.super.twice();
        }

        public int diamond() {
            return 10 * Left.super.diamond() + 5;
        }
    }

    // `super` at a method that stands two levels up, past the class between, and at a default that no class above overrides.
    static class Lowest extends Under {
        int far() {
            return 2 * super.far();
        }

        public int right() {
            return 1000 + super.right();
        }

        public int twice() {
            return 1000 + super.twice();
        }
    }

    // Bridge methods: of a generic class, of a generic interface with a default, and of a narrower result.
    static class Cell<T> {
        T item;

        T get() {
            return item;
        }

        void set(T item) {
            this.item = item;
        }

        Cell<T> self() {
            return this;
        }
    }

    interface Takes<T> {
        int take(T item);

        default int both(T one, T other) {
            return 10 * take(one) + take(other);
        }
    }

    static class Text extends Cell<String> implements Takes<Text> {
        int number;

        Text(int number) {
            this.number = number;
        }

        String get() {
            return item == null ? "none" : super.get();
        }

        void set(String item) {
            number++;
            super.set(item);
        }

        Text self() {
            number += 10;
            return this;
        }

        public int take(Text other) {
            return other.number - number;
        }
    }

    static final class Longer extends Text {
        Longer() {
            super(500);
        }

        Longer self() {
            number += 100;
            return this;
        }

        public int both(Text one, Text other) {
            return 7 + super.both(one, other);
        }
    }

    static void told(String what, int number) {
        System.out.print(what);
        System.out.print(' ');
        System.out.println(number);
    }

    static void hierarchy(Both both, Turned turned, Under under, Lowest lowest) {
        Top[] all = {both, turned, under, lowest};
        for (Top one : all) {
            told("diamond", one.diamond());
            told("above", one.above());
            told("twice", ((Left) one).twice());
            told("right", ((Right) one).right());
            told("over", ((Left) one).over());
            told("over of a class", ((Base) one).over());
            told("far", ((Base) one).far());
            told("hidden", ((Base) one).asks());
        }
        told("hidden below", both.asksBoth());
        told("hidden of all", under.hidden());
        told("hidden of all, two levels down", lowest.hidden());
        told("over of another", ((Other) lowest).over());
    }

    @SuppressWarnings({"unchecked", "rawtypes"})
    static void bridges(Text text) {
        Cell<String> cell = text;
        System.out.println(cell.get());
        cell.set("text");
        System.out.println(cell.get());
        told("self", ((Text) cell.self()).number);
        Takes<Text> takes = text;
        told("both", takes.both(new Text(text.number + 1), text));
        Cell raw = text;
        raw.set("raw");
        System.out.println((String) raw.get());
        try {
            raw.set(takes);
        } catch (ClassCastException refusal) {
            told("no text", text.number);
        }
        try {
            ((Takes) text).take(cell.get());
        } catch (ClassCastException refusal) {
            told("not to take", text.number);
        }
    }

    // Methods that only a package sees: that of away.Second doesn't override the one of near.First, which near.Third does, past it, and
    // with it away.Fourth, which overrides the public one.
    static void packages(near.First one) {
        told("seen in its package", near.First.calls(one));
        told("by a method of its class", one.asks());
        if (one instanceof away.Second) {
            told("seen by all", ((away.Second) one).seen());
            told("asked from the other package", away.Second.calls((away.Second) one));
        }
    }

    // Calls of classes that were compiled anew. Lost has lost its methods, and Kept's is abstract; Apart implements nothing; Split has
    // a second default beside the one of Same; and Middle has a method of its own, which `super` finds from then on.
    static int call(int which, Lost lost, Has has, Split split) {
        switch (which) {
            case 0:
                return lost.has();
            case 1:
                return has.has();
            case 2:
                return ((Kept) lost).kept();
            case 3:
                return ((Lower) lost).up();
            case 4:
                return split.same();
            case 5:
                return ((Below) split).up();
            default:
                return new Deeper().found();
        }
    }

    // The object is looked at before the method is selected.
    static void changed(Lost lost, Has has, Split split) {
        for (int which = 0; which < 7; which++) {
            try {
                told("runs", call(which, lost, has, split));
            } catch (AbstractMethodError error) {
                told("abstract", which);
            } catch (IncompatibleClassChangeError error) {
                told("changed", which);
            } catch (ClassCastException error) {
                told("no such class", which);
            } catch (NullPointerException error) {
                told("null", which);
            }
        }
    }

    public static void main(String[] arguments) {
        hierarchy(new Both(), new Turned(), new Under(), new Lowest());
        bridges(new Text(1));
        bridges(new Longer());
        packages(new near.First());
        packages(new away.Second());
        packages(new near.Third());
        packages(new away.Fourth());
        changed(new Lost(), new Lost(), new Split());
        changed(new Lower(), new Lower(), new Below());
        changed(null, new Apart(), null);
        changed(null, null, null);
    }
}

interface Has {
    int has();
}

abstract class Kept {
    int kept() {
        return 1;
    }
}

class Lost extends Kept implements Has {
    public int has() {
        return 2;
    }

    int kept() {
        return 3;
    }
}

class Lower extends Lost {
    public int has() {
        return 4;
    }

    int up() {
        return super.kept();
    }
}

class Apart implements Has {
    public int has() {
        return 5;
    }
}

interface Same {
    default int same() {
        return 6;
    }
}

interface Again {
}

class Split implements Same {
}

class Below extends Split {
    public int same() {
        return 7;
    }

    int up() {
        return super.same();
    }
}

class Upper {
    int found() {
        return 8;
    }
}

class Middle extends Upper {
}

class Deeper extends Middle {
    int found() {
        return 10 * super.found();
    }
}
