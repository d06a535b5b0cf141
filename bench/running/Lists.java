// A linked list that is walked, and built anew in reverse.
class Lists {
    static final class Node {
        int value;
        Node next;

        Node(int value, Node next) {
            this.value = value;
            this.next = next;
        }
    }

    static long sum(Node list) {
        long sum = 0;
        while (list != null) {
            sum += list.value;
            list = list.next;
        }
        return sum;
    }

    static Node reversed(Node list) {
        Node behind = null;
        while (list != null) {
            behind = new Node(list.value + 1, behind);
            list = list.next;
        }
        return behind;
    }

    public static void main(String[] args) {
        Node list = null;
        for (int i = 0; i < 20000; i++) {
            list = new Node(i, list);
        }
        for (int round = 0; round < 30; round++) {
            for (int walk = 0; walk < 15; walk++) {
                System.out.println(sum(list));
            }
            list = reversed(list);
        }
    }
}
