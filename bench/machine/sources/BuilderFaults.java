public class BuilderFaults {
    static void f(int w) {
        StringBuilder b = new StringBuilder("abc"), n = null;
        try {
            switch (w) {
                case 0: b.charAt(3); break; case 1: b.charAt(-1); break; case 2: b.setCharAt(3, 'x'); break; case 3: b.setCharAt(-1, 'x'); break; case 4: b.deleteCharAt(3); break; case 5: b.deleteCharAt(-1); break; case 6: b.setLength(-1); break; case 7: new StringBuilder(-1); break; case 8: new StringBuilder((String) null); break; case 9: b.append((char[]) null); break;
                case 10: n.append("x"); break; case 11: n.append(1); break; case 12: n.append(1L); break; case 13: n.append('c'); break; case 14: n.append(true); break; case 15: n.append(new char[1]); break; case 16: n.length(); break; case 17: n.charAt(0); break; case 18: n.setCharAt(0, 'x'); break; case 19: n.deleteCharAt(0); break; case 20: n.setLength(0); break; case 21: n.toString(); break; case 22: n.append(new Object()); break;
                case 23: b.charAt(Integer.MIN_VALUE); break; case 24: b.setLength(2); b.charAt(2); break; case 25: n.append((CharSequence) "x"); break;
            }
            System.out.println(b.toString());
        } catch (IndexOutOfBoundsException e) { System.out.println("index"); } catch (NullPointerException e) { System.out.println("null"); } catch (NegativeArraySizeException e) { System.out.println("negative"); }
    }
    public static void main(String[] args) { for (int w = 0; w < 26; w++) f(w); }
}
