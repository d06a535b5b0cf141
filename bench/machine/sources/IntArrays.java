public class IntArrays {
    public static void main(String[] args) {
        int[] a = { 5, 3, 9, 1, 7, -2, 8 };
        for (int i = 0; i < a.length; i++) for (int j = i + 1; j < a.length; j++) if (a[j] < a[i]) { int t = a[i]; a[i] = a[j]; a[j] = t; }
        for (int x : a) { System.out.print(x); System.out.print(' '); } System.out.println();
        a[2] += 5; a[3]++; --a[4]; a[5] <<= 3; System.out.println(a[2]); System.out.println(a[3]); System.out.println(a[4]); System.out.println(a[5]);
        System.out.println(new int[0].length); System.out.println(a.getClass().getName());
    }
}
