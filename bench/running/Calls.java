// Calls of methods that are selected by their object's class: of one class, and through an interface of four.
class Calls {
    static class Counter {
        int count;

        int next(int by) {
            count += by;
            return count;
        }
    }

    interface Step {
        int from(int value);
    }

    static class Up implements Step {
        public int from(int value) {
            return value + 1;
        }
    }

    static class Down implements Step {
        public int from(int value) {
            return value - 2;
        }
    }

    static class Twice implements Step {
        public int from(int value) {
            return value << 1;
        }
    }

    static class Flip implements Step {
        public int from(int value) {
            return ~value;
        }
    }

    public static void main(String[] args) {
        Counter counter = new Counter();
        int sum = 0;
        for (int i = 0; i < 4000000; i++) {
            sum ^= counter.next(i);
        }
        System.out.println(sum);
        Step[] steps = {new Up(), new Down(), new Twice(), new Flip()};
        int value = 1;
        for (int i = 0; i < 4000000; i++) {
            value = steps[i & 3].from(value);
        }
        System.out.println(value);
    }
}
