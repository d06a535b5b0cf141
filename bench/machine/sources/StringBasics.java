public class StringBasics {
    static void s(String s) { System.out.println(s); } static void i(int i) { System.out.println(i); } static void z(boolean z) { System.out.println(z); }
    public static void main(String[] args) {
        String a = "hello world", e = "", n = null;
        i(a.length()); z(e.isEmpty()); z(a.isEmpty()); i(a.charAt(4)); z(a.equals("hello" + " world")); z(a.equals(e)); z(a.equals(null)); z(a.equals(new Object())); z(a.equals((Object) a.toCharArray()));
        i(a.hashCode()); i(e.hashCode()); i("\uffff\uffff\uffff".hashCode()); i("polygenelubricants".hashCode()); i(a.compareTo("hello")); i("hello".compareTo(a)); i("b".compareTo("a\uffff")); i(e.compareTo(e)); i("a".compareTo("\uffff"));
        s(a.concat("!")); s(e.concat(e)); s(a.substring(6)); s(a.substring(11)); s(a.substring(2, 5)); s(a.substring(3, 3)); i(a.indexOf('o')); i(a.indexOf('z')); i(a.indexOf(-1)); i(a.indexOf("o w")); i(a.indexOf("")); i(e.indexOf("")); i(e.indexOf("x")); i(a.indexOf("world!")); i("aaab".indexOf("aab"));
        z(a.startsWith("hell")); z(a.startsWith("")); z(e.startsWith("x")); z(a.endsWith("world")); z(a.endsWith("")); z(e.endsWith("d")); z("d".endsWith("world"));
        s(a.replace('o', '0')); s(a.replace('q', 'r')); s(e.replace('a', 'b')); char[] c = a.toCharArray(); c[0] = 'J'; s(new String(c)); s(new String(c, 6, 5)); s(new String()); s(new String(c, 11, 0)); s(String.valueOf(c)); s(a);
        s(String.valueOf(-5)); s(String.valueOf(Long.MIN_VALUE)); s(String.valueOf('c')); s(String.valueOf(true)); s(String.valueOf((Object) null)); s(String.valueOf(Integer.valueOf(4))); s(a.toString()); z(a.toString() == a); z(((Comparable<String>) a).compareTo("zz") < 0);
        s("x" + 1 + 2L + 'c' + true + null + n + a.length()); n += "!"; s(n);
    }
}
