public class Casts {
    static String is(Object o) { StringBuilder b = new StringBuilder(); b.append(o instanceof String).append(o instanceof Comparable).append(o instanceof Object[]).append(o instanceof int[]).append(o instanceof Cloneable).append(o instanceof java.io.Serializable).append(o instanceof Object).append(o instanceof Comparable[]).append(o instanceof Integer[]).append(o instanceof int[][]).append(o instanceof Number); return b.toString(); }
    static void cast(Object o, int k) {
        try { switch (k) { case 0: o = (String) o; break; case 1: o = (Comparable) o; break; case 2: o = (Object[]) o; break; case 3: o = (int[]) o; break; case 4: o = (Cloneable) o; break; case 5: o = (Number[]) o; break; case 6: o = (Integer) o; break; } System.out.print('+'); }
        catch (ClassCastException e) { System.out.print('-'); }
    }
    public static void main(String[] args) {
        Object[] all = { null, "s", new Object(), new Object[1], new int[1], new Integer[1], new int[1][1], Integer.valueOf(3), new String[0][0], Long.valueOf(3), new Casts() };
        for (Object o : all) { System.out.println(is(o)); for (int k = 0; k < 7; k++) cast(o, k); System.out.println(); }
        Object[] covariant = new Integer[2]; covariant[0] = 5; try { covariant[1] = "s"; } catch (ArrayStoreException e) { System.out.println("store"); } System.out.println(covariant[0]);
    }
}
