import java.util.Iterator;
import java.util.NoSuchElementException;

/** A generic list and tree, with inner and anonymous classes. */
class Generics {
    static class Chain<T> implements Iterable<T> {
        private Node<T> first;
        private int size;

        private static class Node<T> {
            final T item;
            Node<T> next;

            Node(T item, Node<T> next) {
                this.item = item;
                this.next = next;
            }
        }

        Chain<T> with(T item) {
            first = new Node<>(item, first);
            size += 1;
            return this;
        }

        @Override
        public Iterator<T> iterator() {
            return new Iterator<T>() {
                private Node<T> at = first;

                @Override
                public boolean hasNext() {
                    return at != null;
                }

                @Override
                public T next() {
                    if (at == null) {
                        throw new NoSuchElementException();
                    }
                    T item = at.item;
                    at = at.next;
                    return item;
                }
            };
        }
    }

    static abstract class Tree<K extends Comparable<K>> {
        abstract int height();

        abstract Tree<K> with(K key);

        static <K extends Comparable<K>> Tree<K> empty() {
            return new Tree<K>() {
                int height() {
                    return 0;
                }

                Tree<K> with(K key) {
                    return new Fork<>(this, key, this);
                }
            };
        }
    }

    static final class Fork<K extends Comparable<K>> extends Tree<K> {
        private final Tree<K> left;
        private final K key;
        private final Tree<K> right;

        Fork(Tree<K> left, K key, Tree<K> right) {
            this.left = left;
            this.key = key;
            this.right = right;
        }

        int height() {
            return 1 + Math.max(left.height(), right.height());
        }

        Tree<K> with(K other) {
            int order = other.compareTo(key);
            return order == 0 ? this : order < 0 ? new Fork<>(left.with(other), key, right) : new Fork<>(left, key, right.with(other));
        }
    }

    static int sum(Chain<Integer> numbers) {
        int sum = 0;
        for (Integer number : numbers) {
            sum += number;
        }
        return sum;
    }

    static Long total(Object... items) {
        Long total = 0L;
        for (Object item : items) {
            total += item instanceof Integer ? (Integer) item : item instanceof Long ? (Long) item : Long.valueOf(1);
        }
        return total;
    }

    public static void main(String[] words) {
        System.out.println(sum(new Chain<Integer>().with(3).with(4)));
        System.out.println(total(1, 2L, "three") + Tree.<String>empty().with("b").with("a").with("c").height());
    }
}
