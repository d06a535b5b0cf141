public class Trees {
    static class Node { int key; Node left, right; Node(int key) { this.key = key; } void put(int k) { if (k < key) { if (left == null) left = new Node(k); else left.put(k); } else if (k > key) { if (right == null) right = new Node(k); else right.put(k); } } int height() { int l = left == null ? 0 : left.height(), r = right == null ? 0 : right.height(); return 1 + Math.max(l, r); } void show(StringBuilder b) { if (left != null) left.show(b); b.append(key).append(' '); if (right != null) right.show(b); } }
    public static void main(String[] args) { Node n = new Node(50); int x = 7; for (int i = 0; i < 15; i++) { x = (x * 37 + 11) % 101; n.put(x); } StringBuilder b = new StringBuilder(); n.show(b); System.out.println(b); System.out.println(n.height()); }
}
