public class StringFaults {
    static void f(int w) {
        String a = "abc", n = null; char[] c = { 'x', 'y', 'z' }, m = null;
        try {
            switch (w) {
                case 0: a.charAt(3); break; case 1: a.charAt(-1); break; case 2: a.substring(4); break; case 3: a.substring(-1); break; case 4: a.substring(2, 1); break; case 5: a.substring(0, 4); break; case 6: a.substring(-1, 2); break; case 7: a.substring(1, -1); break;
                case 8: a.concat(null); break; case 9: a.compareTo(null); break; case 10: a.indexOf((String) null); break; case 11: a.startsWith(null); break; case 12: a.endsWith(null); break; case 13: new String(m); break; case 14: new String(m, 0, 0); break;
                case 15: new String(c, 1, 3); break; case 16: new String(c, -1, 1); break; case 17: new String(c, 0, -1); break; case 18: new String(c, 4, 0); break; case 19: new String(c, Integer.MAX_VALUE, 1); break; case 20: String.valueOf(m); break;
                case 21: n.length(); break; case 22: n.isEmpty(); break; case 23: n.charAt(0); break; case 24: n.equals(a); break; case 25: n.hashCode(); break; case 26: n.compareTo(a); break; case 27: n.concat(a); break; case 28: n.substring(0); break; case 29: n.substring(0, 0); break;
                case 30: n.indexOf('a'); break; case 31: n.indexOf(a); break; case 32: n.startsWith(a); break; case 33: n.endsWith(a); break; case 34: n.replace('a', 'b'); break; case 35: n.toCharArray(); break; case 36: n.toString(); break;
                case 37: ((Comparable) a).compareTo(new Object()); break; case 38: ((Comparable) a).compareTo(null); break; case 39: new String(c, 1, Integer.MAX_VALUE); break;
            }
            System.out.println("fine");
        } catch (StringIndexOutOfBoundsException e) { System.out.println("index"); } catch (NullPointerException e) { System.out.println("null"); } catch (ClassCastException e) { System.out.println("cast"); }
    }
    public static void main(String[] args) { for (int w = 0; w < 40; w++) f(w); }
}
