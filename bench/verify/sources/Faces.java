/** Interfaces with default and static methods, and values whose types are merged. */
class Faces {
    interface Shape {
        int SIDES = "four".length();

        long area();

        default String describe() {
            return "area ".concat(String.valueOf(area()));
        }

        static Shape larger(Shape one, Shape other) {
            return one.area() > other.area() ? one : other;
        }
    }

    interface Named {
        String name();

        default String describe() {
            return name();
        }
    }

    static class Square implements Shape, Named, Comparable<Square> {
        protected long side;

        Square(long side) {
            this.side = side;
        }

        public long area() {
            return side * side;
        }

        public String name() {
            return "square";
        }

        public String describe() {
            return Shape.super.describe() + Named.super.describe();
        }

        public int compareTo(Square other) {
            return side < other.side ? -1 : side == other.side ? 0 : 1;
        }
    }

    static class Cube extends Square {
        Cube(long side) {
            super(side + 1);
        }

        @Override
        public long area() {
            return super.area() * side;
        }

        @Override
        public String describe() {
            return side > 3 ? super.describe() : super.toString();
        }
    }

    static class Round implements Shape {
        public long area() {
            return 3;
        }
    }

    static Object merged(int which, Square square, Round round) {
        Object object = which == 0 ? (Object) square : which == 1 ? "text" : new int[which];
        Shape shape = which > 2 ? square : round;
        Comparable<?> comparable = which > 3 ? "a" : which > 4 ? square : Integer.valueOf(which);
        if (object instanceof Shape) {
            shape = (Shape) object;
        } else if (object instanceof int[]) {
            object = ((int[]) object).clone();
        }
        return shape == null ? comparable : Shape.larger(shape, square).describe();
    }

    static <T extends Comparable<T>> T most(T[] items) {
        T best = null;
        for (T item : items) {
            if (best == null || item.compareTo(best) > 0) {
                best = item;
            }
        }
        return best;
    }

    static CharSequence text(boolean which) {
        CharSequence text = which ? "text" : new StringBuilder("more");
        return text.length() > 3 ? text : null;
    }

    public static void main(String[] words) {
        System.out.println(merged(0, new Cube(2), new Round()));
        System.out.println(most(new Square[] {new Square(1), new Cube(5)}).describe() + text(true) + Shape.SIDES);
    }
}
