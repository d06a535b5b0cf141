// differs: numbers are read of ASCII digits alone
// expected: "bad\n12\n=> returned"
public class Digits { public static void main(String[] args) { String[] all = { "\u0661\u0662", "12" }; for (String s : all) try { System.out.println(Integer.parseInt(s)); } catch (NumberFormatException e) { System.out.println("bad"); } } }
