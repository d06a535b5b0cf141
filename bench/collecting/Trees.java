/** Binary trees of depth 16 that are made, counted and dropped. */
public class Trees {
    static final class Tree {
        Tree left;
        Tree right;
    }

    static Tree made(int depth) {
        Tree tree = new Tree();
        if (depth > 0) {
            tree.left = made(depth - 1);
            tree.right = made(depth - 1);
        }
        return tree;
    }

    static int count(Tree tree) {
        return tree == null ? 0 : 1 + count(tree.left) + count(tree.right);
    }

    public static void main(String[] args) {
        int sum = 0;
        for (int turn = 0; turn < 10; turn++) {
            sum += count(made(16));
        }
        System.out.println(sum);
    }
}
