// input: "1+2*3\n(4-6)*-(7+1)\n10/4%3\n2*(3\n8/(4-4)\n"
public class Calculator {
    static String text; static int at;
    static class Bad extends Exception { Bad(String s) { super(s + " at " + at); } }
    static int sum() throws Bad { int v = product(); while (at < text.length() && (text.charAt(at) == '+' || text.charAt(at) == '-')) { char op = text.charAt(at++); int w = product(); v = op == '+' ? v + w : v - w; } return v; }
    static int product() throws Bad { int v = unary(); while (at < text.length()) { char op = text.charAt(at); if (op == '*') { at++; v *= unary(); } else if (op == '/') { at++; v /= unary(); } else if (op == '%') { at++; v %= unary(); } else break; } return v; }
    static int unary() throws Bad { if (at >= text.length()) throw new Bad("end"); char c = text.charAt(at); if (c == '-') { at++; return -unary(); } if (c == '(') { at++; int v = sum(); if (at >= text.length() || text.charAt(at) != ')') throw new Bad("no )"); at++; return v; } int from = at; while (at < text.length() && text.charAt(at) >= '0' && text.charAt(at) <= '9') at++; if (from == at) throw new Bad("digit"); return Integer.parseInt(text.substring(from, at)); }
    public static void main(String[] args) throws java.io.IOException { StringBuilder line = new StringBuilder(); for (int c = System.in.read(); c >= 0; c = System.in.read()) { if (c != '\n') { line.append((char) c); continue; } text = line.toString(); at = 0; line.setLength(0); try { System.out.println(text + " = " + sum()); } catch (Bad e) { System.out.println(e.getMessage()); } catch (ArithmeticException e) { System.out.println(e); } } }
}
