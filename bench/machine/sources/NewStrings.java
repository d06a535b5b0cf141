// differs: each native that gives a String makes a new one, where HotSpot gives some that were there
// expected: "false\nfalse\nfalse\nfalse\nfalse\n=> returned"
public class NewStrings { public static void main(String[] args) { String c = "const"; System.out.println(c.substring(0) == c); System.out.println(c.concat("") == c); System.out.println(c.replace('q', 'r') == c); System.out.println(String.valueOf(true) == "true"); System.out.println(Boolean.toString(false) == Boolean.toString(false)); } }
