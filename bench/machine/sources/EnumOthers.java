// differs: compareTo compares ordinals and not enums, as the table of the library says; and a null name is looked at first
// expected: "compared\nno enum\nno enum\nno enum\nnull\n=> returned"
public class EnumOthers {
    enum A { X } enum B { X }
    public static void main(String[] args) {
        try { ((Comparable) A.X).compareTo(B.X); System.out.println("compared"); } catch (ClassCastException e) { System.out.println("cast"); }
        try { System.out.println(Enum.valueOf((Class) String.class, "value")); } catch (IllegalArgumentException e) { System.out.println("no enum"); }
        try { System.out.println(Enum.valueOf((Class) int[].class, "value")); } catch (IllegalArgumentException e) { System.out.println("no enum"); }
        try { System.out.println(Enum.valueOf((Class) EnumOthers.class, "main")); } catch (IllegalArgumentException e) { System.out.println("no enum"); }
        try { System.out.println(Enum.valueOf((Class) EnumOthers.class, null)); } catch (NullPointerException e) { System.out.println("null"); } catch (IllegalArgumentException e) { System.out.println("no enum"); }
    }
}
