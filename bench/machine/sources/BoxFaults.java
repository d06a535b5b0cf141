public class BoxFaults {
    static void f(int w) {
        Integer i = null, one = 1; Long l = null, two = 2L; Character c = null, d = 'd'; Boolean b = null, t = true;
        try {
            switch (w) {
                case 0: i.intValue(); break; case 1: i.longValue(); break; case 2: i.toString(); break; case 3: i.equals(one); break; case 4: i.hashCode(); break; case 5: i.compareTo(one); break; case 6: one.compareTo(null); break; case 7: int k = i; break;
                case 8: l.intValue(); break; case 9: l.longValue(); break; case 10: l.toString(); break; case 11: l.equals(two); break; case 12: l.hashCode(); break; case 13: l.compareTo(two); break; case 14: two.compareTo(null); break;
                case 15: c.charValue(); break; case 16: c.toString(); break; case 17: c.equals(d); break; case 18: c.hashCode(); break; case 19: c.compareTo(d); break; case 20: d.compareTo(null); break;
                case 21: b.booleanValue(); break; case 22: b.toString(); break; case 23: b.equals(t); break; case 24: b.hashCode(); break; case 25: b.compareTo(t); break; case 26: t.compareTo(null); break;
                case 27: ((Comparable) one).compareTo(two); break; case 28: ((Comparable) two).compareTo("x"); break; case 29: ((Comparable) d).compareTo(t); break; case 30: ((Comparable) t).compareTo(d); break; case 31: Object o = two; Integer q = (Integer) o; break;
            }
            System.out.println("fine");
        } catch (NullPointerException e) { System.out.println("null"); } catch (ClassCastException e) { System.out.println("cast"); }
    }
    public static void main(String[] args) { for (int w = 0; w < 32; w++) f(w); }
}
