/** What one root alone holds is there behind a collection, and reads as before. */
public class Rooted {
    static final class Holder {
        int[] held;
    }

    static int[] early = filled(1);
    static int[] still;
    static Holder holder;
    static String[] argument;

    static {
        // The array of the arguments waits for main here, and nothing else names it.
        collect();
    }

    static int[] filled(int value) {
        int[] made = new int[20];
        for (int i = 0; i < 20; i++) {
            made[i] = value + i;
        }
        return made;
    }

    static int sum(int[] of) {
        int sum = 0;
        for (int i = 0; i < of.length; i++) {
            sum += of[i];
        }
        return sum;
    }

    /** Collects, and writes over what lay where there is room now. */
    static int collect() {
        System.gc();
        for (int i = 0; i < 40; i++) {
            int[] over = new int[20];
            for (int at = 0; at < 20; at++) {
                over[at] = -1;
            }
        }
        return 1;
    }

    static int third(int[] one, int two, int[] three) {
        return sum(one) + two + sum(three);
    }

    static int deep(int[] own, int depth) {
        if (depth == 0) {
            return collect();
        }
        return deep(filled(depth), depth - 1) + sum(own);
    }

    static int thrown(int value) {
        try {
            throw new IllegalStateException("thrown " + value);
        } catch (IllegalStateException it) {
            collect();
            System.out.println(it.getMessage());
            return value;
        }
    }

    static int passing(int value) {
        try {
            try {
                throw new IllegalStateException("passing " + value);
            } finally {
                collect();
            }
        } catch (IllegalStateException it) {
            System.out.println(it.getMessage());
            return value;
        }
    }

    public static void main(String[] args) {
        System.out.println(args[0] + args.length);
        System.out.println(sum(early));
        int[] local = filled(2);
        collect();
        System.out.println(sum(local));
        System.out.println(third(filled(3), collect(), filled(4)));
        System.out.println(deep(filled(5), 6));
        still = filled(6);
        holder = new Holder();
        holder.held = filled(7);
        collect();
        System.out.println(sum(still) + " " + sum(holder.held));
        int text = System.identityHashCode("a text that a table holds");
        int type = System.identityHashCode(Holder.class);
        int number = System.identityHashCode(Integer.valueOf(-128));
        int large = System.identityHashCode(Long.valueOf(127));
        int letter = System.identityHashCode(Character.valueOf('z'));
        int truth = System.identityHashCode(Boolean.valueOf(true));
        int other = System.identityHashCode(Integer.valueOf(1000));
        collect();
        System.out.println(text == System.identityHashCode("a text that a table holds"));
        System.out.println(type == System.identityHashCode(Holder.class));
        System.out.println(number == System.identityHashCode(Integer.valueOf(-128)));
        System.out.println(large == System.identityHashCode(Long.valueOf(127)));
        System.out.println(letter == System.identityHashCode(Character.valueOf('z')));
        System.out.println(truth == System.identityHashCode(Boolean.valueOf(true)));
        System.out.println(other == System.identityHashCode(Integer.valueOf(1000)));
        System.out.println(Integer.valueOf(-128) + " " + Long.valueOf(127) + " " + Character.valueOf('z') + " " + Boolean.valueOf(true));
        System.out.println("two" == "two");
        System.out.println(thrown(8) + passing(9));
    }
}
