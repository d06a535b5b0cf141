// Natives of String, Math, Object and Enum that give a number or nothing, and what they throw. Each line that is printed has the answers of
// one method.
public class Answers {
    enum Colour { RED, GREEN, BLUE }

    static void thrown(RuntimeException e) {
        System.out.print(e instanceof NullPointerException ? "null " : e instanceof StringIndexOutOfBoundsException ? "index "
                : e instanceof NumberFormatException ? "format " : e instanceof ArithmeticException ? "zero " : "other ");
    }

    static void at(String text, int place) {
        try { System.out.print(text.charAt(place)); } catch (RuntimeException e) { thrown(e); }
    }

    static void order(String one, String other) {
        try { System.out.print(one.compareTo(other)); } catch (RuntimeException e) { thrown(e); }
        System.out.print(' ');
    }

    static void number(String text) {
        try { System.out.print(Integer.parseInt(text)); } catch (RuntimeException e) { thrown(e); }
        System.out.print(' ');
    }

    static void large(String text) {
        try { System.out.print(Long.parseLong(text)); } catch (RuntimeException e) { thrown(e); }
        System.out.print(' ');
    }

    static void find(String text, String part) {
        try { System.out.print(text.indexOf(part)); } catch (RuntimeException e) { thrown(e); }
        System.out.print(' ');
    }

    static void ends(String text, String part) {
        try { System.out.print(text.startsWith(part)); System.out.print(text.endsWith(part)); } catch (RuntimeException e) { thrown(e); }
        System.out.print(' ');
    }

    static void divide(int a, int b) {
        try { System.out.print(Math.floorDiv(a, b)); System.out.print(' '); System.out.print(Math.floorMod(a, b)); } catch (RuntimeException e) { thrown(e); }
        System.out.print(' ');
    }

    static void divide(long a, long b) {
        try { System.out.print(Math.floorDiv(a, b)); System.out.print(' '); System.out.print(Math.floorMod(a, b)); } catch (RuntimeException e) { thrown(e); }
        System.out.print(' ');
    }

    public static void main(String[] args) {
        String text = "hello", empty = "", none = null, pair = "\ud83d\ude00z\uffff";
        System.out.print(text.length()); System.out.print(pair.length()); System.out.println(empty.length());
        System.out.print(text.isEmpty()); System.out.println(empty.isEmpty());
        at(text, 0); at(text, 4); at(text, 5); at(text, -1); at(text, Integer.MIN_VALUE); at(empty, 0); at(none, 0); at(pair, 2); System.out.println();
        System.out.print(text.equals("hello")); System.out.print(text.equals("hellp")); System.out.print(text.equals("hell"));
        System.out.print(text.equals(null)); System.out.print(text.equals(new Object())); System.out.println(text.equals((Object) text));
        System.out.print(text.hashCode()); System.out.print(' '); System.out.print(empty.hashCode()); System.out.print(' '); System.out.println(pair.hashCode());
        order(text, "help"); order("help", text); order(text, text); order(text, "hello!"); order("hello!", text); order(empty, text); order("a", "b!!"); order(pair, text); order(text, none); System.out.println();
        System.out.print(text.indexOf('l')); System.out.print(text.indexOf('x')); System.out.print(text.indexOf(-1)); System.out.println(pair.indexOf(0xffff));
        find(text, "l"); find(text, "lo"); find(text, "lx"); find(text, ""); find(empty, ""); find(empty, "l"); find("aaab", "aab"); find(text, none); System.out.println();
        ends(text, "he"); ends(text, "lo"); ends(text, ""); ends(text, text); ends(text, "hello!"); ends(text, none); System.out.println();
        number("0"); number("-0"); number("+7"); number("0012"); number("2147483647"); number("2147483648"); number("-2147483648"); number("-2147483649");
        number("99999999999999999999"); number(""); number("+"); number("-"); number("1x"); number(" 1"); number(none); System.out.println();
        large("9223372036854775807"); large("9223372036854775808"); large("-9223372036854775808"); large("-9223372036854775809"); large("+12"); large("-"); large(none); System.out.println();
        System.out.print(Math.abs(-5)); System.out.print(Math.abs(5)); System.out.print(Math.abs(Integer.MIN_VALUE)); System.out.print(Math.abs(-5L)); System.out.println(Math.abs(Long.MIN_VALUE));
        System.out.print(Math.max(1, 2)); System.out.print(Math.max(-1, -2)); System.out.print(Math.max(1L, -2L)); System.out.print(Math.min(1, 2)); System.out.println(Math.min(1L, -2L));
        divide(7, 2); divide(-7, 2); divide(7, -2); divide(-7, -2); divide(Integer.MIN_VALUE, -1); divide(1, 0); System.out.println();
        divide(7L, 2L); divide(-7L, 2L); divide(7L, -2L); divide(-7L, -2L); divide(Long.MIN_VALUE, -1L); divide(1L, 0L); System.out.println();
        System.out.print(Integer.compare(3, 4)); System.out.print(Integer.compare(Integer.MAX_VALUE, Integer.MIN_VALUE)); System.out.print(Integer.compare(3, 3)); System.out.print(Long.compare(5L, 4L)); System.out.println(Long.compare(Long.MIN_VALUE, Long.MAX_VALUE));
        Object one = new Object(), other = new Object();
        System.out.print(one.equals(one)); System.out.print(one.equals(other)); System.out.print(one.equals(null)); System.out.print(one.hashCode() == System.identityHashCode(one));
        System.out.print(one.hashCode() == other.hashCode()); System.out.println(System.identityHashCode(null));
        System.out.print(Colour.RED.compareTo(Colour.BLUE)); System.out.print(Colour.BLUE.compareTo(Colour.GREEN)); System.out.print(Colour.RED.equals(Colour.RED)); System.out.print(Colour.RED.equals(Colour.BLUE));
        System.out.println(Colour.GREEN.hashCode() == System.identityHashCode(Colour.GREEN));
        System.out.flush();
    }
}
