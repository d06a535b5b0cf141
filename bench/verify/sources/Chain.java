import java.util.Iterator;
class Chain<T extends Comparable<T>> implements Iterable<T> {
    private class Link {
        final T value;
        Link next;
        Link(T value, Link next) { this.value = value; this.next = next; }
    }
    private Link first;
    private int length;
    @SafeVarargs
    static <T extends Comparable<T>> Chain<T> of(T... values) {
        Chain<T> chain = new Chain<>();
        for (T value : values) chain.add(value);
        return chain;
    }
    void add(T value) {
        first = new Link(value, first);
        length++;
    }
    T most() {
        T most = null;
        for (T value : this) {
            if (most == null || value.compareTo(most) > 0) most = value;
        }
        return most;
    }
    public Iterator<T> iterator() {
        return new Iterator<T>() {
            private Link at = first;
            public boolean hasNext() { return at != null; }
            public T next() {
                T value = at.value;
                at = at.next;
                return value;
            }
        };
    }
    public static void main(String[] args) {
        System.out.println(Chain.of("b", "c", "a").most());
        int sum = 0;
        for (int n : Chain.of(1, 2, 3)) sum += n;
        System.out.println(sum);
    }
}
