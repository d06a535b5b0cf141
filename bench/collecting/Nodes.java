/** Lists of 100,000 nodes, each built, added up and dropped. */
public class Nodes {
    static final class Node {
        Node next;
        int v;
    }

    static long built(int length) {
        Node first = null;
        for (int i = 0; i < length; i++) {
            Node node = new Node();
            node.next = first;
            node.v = i;
            first = node;
        }
        long sum = 0;
        for (Node node = first; node != null; node = node.next) {
            sum += node.v;
        }
        return sum;
    }

    public static void main(String[] args) {
        long sum = 0;
        for (int turn = 0; turn < 10; turn++) {
            sum += built(100000);
        }
        System.out.println(sum);
    }
}
