public class Identity {
    static final String C = "const"; static class Other { static final String C = "const"; static String made() { return "const"; } } static String field = "con" + "st";
    static void z(boolean z) { System.out.println(z); }
    public static void main(String[] args) {
        z(C == Other.C); z(C == Other.made()); z(C == field); z("const" == C); String s = "con"; z((s + "st") == C); z((s + "st").equals(C)); z(C.toString() == C); z(new String(C.toCharArray()) == C); z("" == new String());
        z(Identity.class == new Identity().getClass()); z(int[].class == new int[0].getClass()); z(String.class == "x".getClass()); z(Other.class == (Object) Identity.class); z(new int[0].getClass() == new int[5].getClass()); z(new Object() == new Object()); z(Integer.toString(5) == Integer.toString(5)); z("x".getClass().getClass() == Class.class); z(C.toCharArray() == C.toCharArray());
        Object o = new Object(); z(System.identityHashCode(o) == o.hashCode()); z(System.identityHashCode(null) == 0); z(System.identityHashCode("a") == System.identityHashCode("a")); z(o.equals(o)); z(o.equals(null)); z(o.hashCode() >= 0); System.gc(); z(System.identityHashCode(o) == o.hashCode());
        z(System.out == System.out); z(System.in == null); System.out.println(System.out.getClass().getName());
    }
}
