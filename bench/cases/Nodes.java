/** Lists of 100,000 nodes, each dropped before the next is made. With an argument one list is collected around and read. */
public class Nodes {
    static final class Node {
        Node next;
        int v;
    }

    static Node list(int length) {
        Node first = null;
        for (int i = 0; i < length; i++) {
            Node node = new Node();
            node.next = first;
            node.v = i;
            first = node;
        }
        return first;
    }

    static long sum(Node node) {
        long sum = 0;
        while (node != null) {
            sum += node.v;
            node = node.next;
        }
        return sum;
    }

    public static void main(String[] args) {
        if (args.length > 0) {
            Node list = list(100000);
            System.gc();
            System.out.println(sum(list));
            return;
        }
        long sum = 0;
        for (int turn = 0; turn < 10; turn++) {
            sum += sum(list(100000));
        }
        System.out.println(sum);
    }
}
