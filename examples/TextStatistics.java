import java.io.IOException;
import java.io.InputStream;

/** What a text on standard input consists of: lines, words, bytes, its longest line, and how often each letter occurs. */
public class TextStatistics {
    private static final int WIDTH = 40;

    private final int[] letters = new int[26];
    private int bytes;
    private int lines;
    private int words;
    private int longest;
    private int length;
    private boolean inWord;

    void add(int unit) {
        bytes++;
        if (unit == '\n') {
            endLine();
        } else {
            length++;
        }
        boolean visible = unit > ' ';
        if (visible && !inWord) {
            words++;
        }
        inWord = visible;
        int letter = (unit | 32) - 'a';
        if (letter >= 0 && letter < letters.length) {
            letters[letter]++;
        }
    }

    private void endLine() {
        lines++;
        longest = Math.max(longest, length);
        length = 0;
    }

    /** All bytes up to the end, which come in pieces of any length. */
    void read(InputStream in) throws IOException {
        byte[] piece = new byte[512];
        for (int read = in.read(piece, 0, piece.length); read >= 0; read = in.read(piece, 0, piece.length)) {
            for (int i = 0; i < read; i++) {
                add(piece[i] & 0xff);
            }
        }
        if (length > 0) {
            endLine();
        }
    }

    void print() {
        System.out.println(lines + " lines, " + words + " words, " + bytes + " bytes; the longest line has " + longest);
        int most = 0;
        for (int count : letters) {
            most = Math.max(most, count);
        }
        for (int letter = 0; letter < letters.length; letter++) {
            if (letters[letter] > 0) {
                StringBuilder bar = new StringBuilder();
                bar.append((char) ('a' + letter)).append(' ');
                for (int i = 0; i < (letters[letter] * WIDTH + most - 1) / most; i++) {
                    bar.append('#');
                }
                System.out.println(bar.append(' ').append(letters[letter]));
            }
        }
    }

    public static void main(String[] arguments) throws IOException {
        TextStatistics statistics = new TextStatistics();
        statistics.read(System.in);
        statistics.print();
    }
}
