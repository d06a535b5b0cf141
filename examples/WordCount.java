/** How often each word of a text occurs: a hash table written by hand, which grows, and its entries in order. */
public class WordCount {
    static final class Entry implements Comparable<Entry> {
        final String word;
        final Entry next;
        int count = 1;

        Entry(String word, Entry next) {
            this.word = word;
            this.next = next;
        }

        @Override
        public int compareTo(Entry other) {
            return count != other.count ? other.count - count : word.compareTo(other.word);
        }
    }

    private Entry[] table = new Entry[4];
    private int size;

    void add(String word) {
        int place = place(word, table.length);
        for (Entry entry = table[place]; entry != null; entry = entry.next) {
            if (entry.word.equals(word)) {
                entry.count++;
                return;
            }
        }
        if (size == table.length) {
            grow();
            place = place(word, table.length);
        }
        table[place] = new Entry(word, table[place]);
        size++;
    }

    private static int place(String word, int length) {
        return (word.hashCode() & 0x7fffffff) % length;
    }

    private void grow() {
        Entry[] larger = new Entry[2 * table.length];
        for (Entry first : table) {
            for (Entry entry = first; entry != null; entry = entry.next) {
                int place = place(entry.word, larger.length);
                Entry moved = new Entry(entry.word, larger[place]);
                moved.count = entry.count;
                larger[place] = moved;
            }
        }
        table = larger;
    }

    Entry[] sorted() {
        Entry[] all = new Entry[size];
        int filled = 0;
        for (Entry first : table) {
            for (Entry entry = first; entry != null; entry = entry.next) {
                int place = filled;
                while (place > 0 && all[place - 1].compareTo(entry) > 0) {
                    place--;
                }
                System.arraycopy(all, place, all, place + 1, filled - place);
                all[place] = entry;
                filled++;
            }
        }
        return all;
    }

    static boolean isLetter(char unit) {
        return unit >= 'a' && unit <= 'z' || unit >= 'A' && unit <= 'Z';
    }

    static char lower(char unit) {
        return unit >= 'A' && unit <= 'Z' ? (char) (unit + 32) : unit;
    }

    public static void main(String[] arguments) {
        String text = arguments.length > 0 ? arguments[0]
                : "The rain in Spain stays mainly in the plain. In Hartford, Hereford and Hampshire hurricanes hardly ever happen; "
                + "the rain, the rain!";
        WordCount words = new WordCount();
        StringBuilder word = new StringBuilder();
        for (char unit : (text + ' ').toCharArray()) {
            if (isLetter(unit)) {
                word.append(lower(unit));
            } else if (word.length() > 0) {
                words.add(word.toString());
                word.setLength(0);
            }
        }
        for (Entry entry : words.sorted()) {
            System.out.println(entry.count + " " + entry.word);
        }
    }
}
