/** Records in a linked list, sorted by merging, and what a wrong one throws. */
public class Sorting {
    static final class Record {
        final int key;
        Record next;

        Record(int key, Record next) {
            this.key = key;
            this.next = next;
        }
    }

    static final class NegativeKey extends RuntimeException {
        final int key;

        NegativeKey(int key) {
            this.key = key;
        }
    }

    static Record merge(Record one, Record other) {
        Record last = new Record(0, null);
        Record first = last;
        while (one != null && other != null) {
            if (one.key <= other.key) {
                last.next = one;
                one = one.next;
            } else {
                last.next = other;
                other = other.next;
            }
            last = last.next;
        }
        last.next = one != null ? one : other;
        return first.next;
    }

    static Record sort(Record all, int count) {
        if (count < 2) {
            return all;
        }
        Record middle = all;
        for (int i = 1; i < count / 2; i++) {
            middle = middle.next;
        }
        Record rest = middle.next;
        middle.next = null;
        return merge(sort(all, count / 2), sort(rest, count - count / 2));
    }

    static Record checked(Record all) {
        for (Record record = all; record != null; record = record.next) {
            if (record.key < 0) {
                throw new NegativeKey(record.key);
            }
        }
        return all;
    }

    public static void main(String[] arguments) {
        Record all = null;
        int key = 7;
        for (int i = 0; i < 12; i++) {
            all = new Record(key, all);
            key = key * 37 % 101;
        }
        for (Record record = sort(checked(all), 12); record != null; record = record.next) {
            System.out.print(record.key);
            System.out.print(record.next == null ? '\n' : ' ');
        }
        try {
            checked(new Record(3, new Record(-4, null)));
        } catch (NegativeKey wrong) {
            System.out.println(wrong.key);
        }
    }
}
