public class Parsing {
    static void i(String s) { try { System.out.println(Integer.parseInt(s)); } catch (NumberFormatException e) { System.out.println("bad"); } }
    static void l(String s) { try { System.out.println(Long.parseLong(s)); } catch (IllegalArgumentException e) { System.out.println("bad"); } }
    public static void main(String[] args) {
        String[] all = { "0", "-0", "+5", "007", "2147483647", "2147483648", "-2147483648", "-2147483649", "", "-", "+", "--1", "+-1", "1 ", " 1", "12a", "0x1", "9223372036854775807", "9223372036854775808", "-9223372036854775808", "-9223372036854775809", "99999999999999999999", "1/", "1:", null };
        for (String s : all) { i(s); l(s); }
    }
}
