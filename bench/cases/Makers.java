// Natives that make strings, builders, boxes and class objects, and what they throw. Each line that is printed has what one method makes.
public class Makers {
    static class Own extends RuntimeException {
        Own(String message) { super(message); }
    }

    static void thrown(RuntimeException e) {
        System.out.print(e instanceof NullPointerException ? "null " : e instanceof NegativeArraySizeException ? "size "
                : e instanceof IndexOutOfBoundsException ? "index " : "other ");
    }

    static void say(String text) {
        System.out.print(text);
        System.out.print('|');
    }

    static void cut(String text, int from, int to) {
        try { say(text.substring(from, to)); } catch (RuntimeException e) { thrown(e); }
    }

    static void rest(String text, int from) {
        try { say(text.substring(from)); } catch (RuntimeException e) { thrown(e); }
    }

    static void join(String one, String other) {
        try { say(one.concat(other)); } catch (RuntimeException e) { thrown(e); }
    }

    static void of(char[] units) {
        try { say(new String(units)); say(String.valueOf(units)); } catch (RuntimeException e) { thrown(e); }
    }

    static void part(char[] units, int from, int count) {
        try { say(new String(units, from, count)); } catch (RuntimeException e) { thrown(e); }
    }

    static void unit(StringBuilder builder, int place, char unit) {
        try { builder.setCharAt(place, unit); say(builder.toString()); } catch (RuntimeException e) { thrown(e); }
    }

    static void without(StringBuilder builder, int place) {
        try { say(builder.deleteCharAt(place).toString()); } catch (RuntimeException e) { thrown(e); }
    }

    static void sized(StringBuilder builder, int length) {
        try {
            builder.setLength(length);
            say(builder.toString().replace('\0', '_'));
        } catch (RuntimeException e) { thrown(e); }
    }

    static void room(int room) {
        try { System.out.print(new StringBuilder(room).length()); } catch (RuntimeException e) { thrown(e); }
    }

    static void from(String text) {
        try { say(new StringBuilder(text).append('!').toString()); } catch (RuntimeException e) { thrown(e); }
    }

    public static void main(String[] args) {
        String text = "hello", none = null;
        join(text, " you"); join("", ""); join(text, ""); join("", text); join(text, none); join(text, text); System.out.println();
        cut(text, 0, 5); cut(text, 1, 3); cut(text, 5, 5); cut(text, 3, 2); cut(text, -1, 2); cut(text, 0, 6); cut(none, 0, 0); System.out.println();
        rest(text, 0); rest(text, 2); rest(text, 5); rest(text, 6); rest(text, -1); System.out.println();
        say(text.replace('l', 'L')); say(text.replace('x', 'y')); say("".replace('a', 'b')); say(text.replace('h', '\u20ac')); System.out.println();
        say(String.valueOf(0)); say(String.valueOf(-2147483648)); say(String.valueOf(2147483647)); say(String.valueOf(-9223372036854775808L)); say(String.valueOf(9223372036854775807L)); say(String.valueOf('x')); say(String.valueOf('\u00e9')); say(String.valueOf(true)); say(String.valueOf(false)); System.out.println();
        of(new char[] {'a', 'b'}); of(new char[0]); of(new char[] {'\ud83d', '\ude00'}); of(null); System.out.println();
        char[] letters = {'a', 'b', 'c', 'd'};
        part(letters, 0, 4); part(letters, 1, 2); part(letters, 4, 0); part(letters, 2, 3); part(letters, -1, 2); part(letters, 1, -1); part(letters, 2147483647, 2); part(null, 0, 0); say(new String()); System.out.println();
        letters[0] = 'z'; say(String.valueOf(letters)); System.out.println(new String(letters).equals("zbcd"));
        say(Integer.toString(-7)); say(Integer.valueOf(12).toString()); say(Integer.toHexString(0)); say(Integer.toHexString(255)); say(Integer.toHexString(-1)); say(Integer.toHexString(Integer.MIN_VALUE)); say(Integer.toHexString(0x00ab00cd)); System.out.println();
        say(Long.toString(-7000000000L)); say(Long.valueOf(12).toString()); say(Character.toString('q')); say(Character.valueOf('r').toString()); say(Boolean.toString(true)); say(Boolean.valueOf(false).toString()); System.out.println();
        say(text.getClass().getName()); say(new int[0].getClass().getName()); say(new String[0][0].getClass().getName()); say(new Own("m").getClass().getName()); say(Integer.valueOf(1).getClass().getName()); System.out.println(text.getClass() == "x".getClass());
        say(new Own("m").toString()); say(new Own(null).toString()); say(new Own("").toString()); say(new IllegalStateException().toString()); System.out.println(new Object().toString().startsWith("java.lang.Object@"));

        StringBuilder builder = new StringBuilder();
        say(builder.append("a").append(1).append(-2L).append('c').append(true).append(new char[] {'x', 'y'}).append((String) null).append((Object) "o").toString());
        for (int i = 0; i < 40; i++) { builder.append(i); }
        say(builder.toString()); System.out.println(builder.length());
        StringBuilder twice = new StringBuilder("ab");
        twice.append(twice.toString()).append(twice.toString()); say(twice.toString()); say(twice.append("").toString()); System.out.println(twice.append("c") == twice);
        from("start"); from(""); from(none); room(0); room(5); room(-1); System.out.println();
        StringBuilder few = new StringBuilder("abcd");
        unit(few, 0, 'A'); unit(few, 3, 'D'); unit(few, 4, 'x'); unit(few, -1, 'x'); System.out.println(few.charAt(3));
        without(few, 0); without(few, 2); without(few, 2); without(few, -1); without(few, 0); without(few, 0); without(few, 0); System.out.println(few.length());
        few.append("abc"); sized(few, 2); sized(few, 5); sized(few, 0); sized(few, 30); sized(few, -1); System.out.println(few.length());
        String before = few.toString(); few.setLength(0); few.append("later"); say(before.replace('\0', '0')); System.out.println(few.toString());

        Integer small = 127, again = 127, large = 128, other = 128;
        System.out.print(small == again); System.out.print(large == other); System.out.print(large.equals(other)); System.out.print(Integer.valueOf(-128) == Integer.valueOf(-128)); System.out.println(Integer.valueOf(-129) == Integer.valueOf(-129));
        System.out.print(Long.valueOf(127) == Long.valueOf(127)); System.out.print(Long.valueOf(128) == Long.valueOf(128)); System.out.print(Long.valueOf(5).equals(5)); System.out.print(Long.valueOf(5).equals(5L)); System.out.println(small.equals(127L));
        System.out.print(Character.valueOf('a') == Character.valueOf('a')); System.out.print(Character.valueOf('\u0080') == Character.valueOf('\u0080')); System.out.print(Boolean.valueOf(true) == Boolean.valueOf(true)); System.out.println();
        System.out.print(small.intValue() + small.longValue()); System.out.print(' '); System.out.print(large.hashCode()); System.out.print(' '); System.out.print(Long.valueOf(4294967297L).hashCode()); System.out.print(' '); System.out.print(Long.valueOf(-1).intValue()); System.out.print(' '); System.out.print(Character.valueOf('b').hashCode()); System.out.print(' '); System.out.print(Boolean.valueOf(true).hashCode()); System.out.print(' '); System.out.println(Boolean.valueOf(false).hashCode());
        System.out.print(small.compareTo(large)); System.out.print(Long.valueOf(3).compareTo(2L)); System.out.print(Character.valueOf('a').compareTo('c')); System.out.print(Boolean.valueOf(true).compareTo(false)); System.out.print(Character.valueOf('x').charValue()); System.out.println(Boolean.valueOf(true).booleanValue());
        System.out.print(new Integer(7).equals(7)); System.out.print(new Integer(7) == new Integer(7)); System.out.print(new Long(9).longValue()); System.out.print(new Character('k').charValue()); System.out.println(new Boolean(true).booleanValue());
        String sum = "";
        for (int i = 0; i < 5; i++) { sum += i + ","; }
        System.out.println(sum + 'x' + 1L + true + null + small + new Own("n"));
    }
}
