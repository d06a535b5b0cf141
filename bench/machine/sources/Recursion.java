public class Recursion {
    static int fib(int n) { return n < 2 ? n : fib(n - 1) + fib(n - 2); } static int ack(int m, int n) { return m == 0 ? n + 1 : n == 0 ? ack(m - 1, 1) : ack(m - 1, ack(m, n - 1)); } static long fact(int n) { return n == 0 ? 1 : n * fact(n - 1); } static int gcd(int a, int b) { return b == 0 ? a : gcd(b, a % b); } static boolean even(int n) { return n == 0 || odd(n - 1); } static boolean odd(int n) { return n != 0 && even(n - 1); }
    static void hanoi(int n, char a, char b, char c) { if (n == 0) return; hanoi(n - 1, a, c, b); System.out.print(a); System.out.print(c); System.out.print(' '); hanoi(n - 1, b, a, c); }
    public static void main(String[] args) { System.out.println(fib(11)); System.out.println(ack(2, 2)); System.out.println(fact(20)); System.out.println(gcd(1071, 462)); System.out.println(even(15)); hanoi(4, 'A', 'B', 'C'); System.out.println(); }
}
