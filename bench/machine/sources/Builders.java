public class Builders {
    static void s(StringBuilder b) { System.out.println(b.toString()); System.out.println(b.length()); }
    public static void main(String[] args) {
        StringBuilder b = new StringBuilder(); s(b); b.append("ab").append(-12).append(345L).append('c').append(false).append(new char[] { 'x', 'y' }).append((Object) null).append((String) null).append(new Object() { public String toString() { return "obj"; } }); s(b);
        b.append((CharSequence) "seq").append((CharSequence) new StringBuilder("nested")).append((CharSequence) null); s(b); System.out.println(b.charAt(0)); System.out.println(b.charAt(b.length() - 1)); b.setCharAt(1, 'Z'); b.setCharAt(2, '\ud800'); System.out.println((int) b.charAt(2)); b.deleteCharAt(2); s(b);
        b.deleteCharAt(0).deleteCharAt(b.length() - 1); s(b); b.setLength(3); s(b); b.setLength(6); System.out.println(b.length()); System.out.println((int) b.charAt(5)); System.out.println(b.toString().equals("Z12\0\0\0")); b.setLength(0); s(b); System.out.println(b.append("") == b); s(new StringBuilder(0).append("q")); s(new StringBuilder(100).append(1)); s(new StringBuilder("init").append("+"));
        StringBuilder big = new StringBuilder(1); for (int i = 0; i < 60; i++) big.append(i); s(big); String t = big.toString(); big.setCharAt(0, 'X'); System.out.println(t.charAt(0)); big.setLength(5); big.append("tail"); s(big); big.append(Integer.MIN_VALUE).append(Long.MIN_VALUE).append(Long.MAX_VALUE); s(big); big.append(new char[0]); System.out.println(big.append(big.toString()).length());
        StringBuilder r = new StringBuilder(); for (char c : "reverse".toCharArray()) { StringBuilder q = new StringBuilder(); q.append(c).append(r.toString()); r = q; } s(r); System.out.println(b.equals(new StringBuilder())); System.out.println("" + r);
    }
}
