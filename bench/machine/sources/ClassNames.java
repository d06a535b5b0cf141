public class ClassNames {
    static class In {} class Inner {} interface If {}
    static void n(Object o) { System.out.println(o.getClass().getName()); }
    public static void main(String[] args) {
        n(new In()); n(new ClassNames().new Inner()); n(new Object() {}); n(new int[0]); n(new In[0]); n(new In[1][1]); n(new If[0]); n(new long[0][0][0]); n("s"); n(new String[0]); n(1); n(1L); n('c'); n(true); n(new StringBuilder()); n(new Object()); n(In.class); n(new Exception()); n(new Boolean[0][]); n(new byte[0]); n(new char[0]); n(new short[0]); n(new boolean[0]);
        System.out.println(If.class.getName()); System.out.println(String[].class.getName()); System.out.println(java.util.Iterator.class.getName()); System.out.println(ClassNames.class.desiredAssertionStatus()); assert args.length > 5 : "off"; Class<?> none = null; try { none.getName(); } catch (NullPointerException e) { System.out.println("null"); } try { none.desiredAssertionStatus(); } catch (NullPointerException e) { System.out.println("null"); } Object nil = null; try { nil.getClass(); } catch (NullPointerException e) { System.out.println("null"); } try { nil.hashCode(); } catch (NullPointerException e) { System.out.println("null"); } try { nil.equals(nil); } catch (NullPointerException e) { System.out.println("null"); } try { nil.toString(); } catch (NullPointerException e) { System.out.println("null"); }
    }
}
