public class Printing {
    public static void main(String[] args) {
        java.io.PrintStream o = System.out; o.print(true); o.print(false); o.print('x'); o.print(-5); o.print(1L << 62); o.print("s"); o.print((String) null); o.print(""); o.println(true); o.println('y'); o.println(Integer.MIN_VALUE); o.println(Long.MIN_VALUE); o.println("line"); o.println((String) null); o.println(); o.println(0); o.println(0L); o.flush(); o.print((Object) 5); o.println((Object) 'c');
        o.println("\u00e9\u20ac\u07ff\u0800\uffff\0\u007f\u0080"); o.println("\ud83d\ude00"); o.println("a\ud83db"); o.println("\ude00"); o.println("\ude00\ud83d"); o.println("\ud83d"); o.println('\ud83d'); o.print('\u00e9'); o.print('\uffff'); o.println('\u20ac'); o.println("\ud83d\ud83d\ude00\ude00"); o.println("tab\t\"quote\\");
        java.io.PrintStream n = null; for (int i = 0; i < 12; i++) try { switch (i) { case 0: n.print(true); break; case 1: n.print('c'); break; case 2: n.print(1); break; case 3: n.print(1L); break; case 4: n.print(""); break; case 5: n.println(true); break; case 6: n.println('c'); break; case 7: n.println(1); break; case 8: n.println(1L); break; case 9: n.println(""); break; case 10: n.println(); break; case 11: n.flush(); break; } o.print("fine"); } catch (NullPointerException e) { o.print(i); } o.println();
    }
}
