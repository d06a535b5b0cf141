public class Switches {
    static int table(int i) { switch (i) { case -1: return 10; case 0: return 11; case 1: case 2: return 12; case 4: i += 5; case 5: return i; default: return -9; } }
    static int lookup(int i) { switch (i) { case Integer.MIN_VALUE: return 1; case -100: return 2; case 7: return 3; case 100000: return 4; case Integer.MAX_VALUE: return 5; } return 6; }
    static int none(int i) { switch (i) { default: return i * 2; } }
    static String words(String s) { switch (s) { case "one": return "1"; case "two": return "2"; case "Aa": return "A"; case "BB": return "B"; case "": return "empty"; default: return "?"; } }
    static int chars(char c) { switch (c) { case 'a': return 1; case 'b': return 2; case '\uffff': return 3; default: return 0; } }
    public static void main(String[] args) {
        int[] v = { Integer.MIN_VALUE, -101, -100, -2, -1, 0, 1, 2, 3, 4, 5, 6, 7, 100000, Integer.MAX_VALUE };
        for (int i : v) { System.out.print(table(i)); System.out.print(' '); System.out.print(lookup(i)); System.out.print(' '); System.out.println(none(i)); }
        String[] w = { "one", "two", "Aa", "BB", "AaBB", "", "three" };
        for (String s : w) System.out.println(words(s));
        System.out.println(chars('a')); System.out.println(chars('\uffff')); System.out.println(chars('z'));
        try { words(null); } catch (NullPointerException e) { System.out.println("null"); }
    }
}
