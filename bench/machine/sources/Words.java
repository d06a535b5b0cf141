public class Words {
    static String caesar(String s, int k) { StringBuilder b = new StringBuilder(); for (char c : s.toCharArray()) { if (c >= 'a' && c <= 'z') c = (char) ((c - 'a' + k + 26) % 26 + 'a'); b.append(c); } return b.toString(); }
    static boolean palindrome(String s) { for (int i = 0, j = s.length() - 1; i < j; i++, j--) if (s.charAt(i) != s.charAt(j)) return false; return true; }
    public static void main(String[] args) {
        String s = "the quick brown fox"; String[] w = new String[4]; int n = 0; while (s.indexOf(' ') >= 0) { int i = s.indexOf(' '); w[n++] = s.substring(0, i); s = s.substring(i + 1); } w[n++] = s;
        for (int i = 1; i < n; i++) for (int j = i; j > 0 && w[j].compareTo(w[j - 1]) < 0; j--) { String t = w[j]; w[j] = w[j - 1]; w[j - 1] = t; } for (String x : w) System.out.println(x + caesar(x, 3) + caesar(caesar(x, -5), 5).equals(x)); System.out.println(palindrome("level")); System.out.println(palindrome("levels")); System.out.println(palindrome(""));
    }
}
