/** Methods that are called by interfaces. */
public class Faces {
    interface Shape {
        int area();

        default int doubled() {
            return 2 * area();
        }
    }

    interface Named extends Shape {
        char letter();

        @Override
        default int doubled() {
            return 3 * area();
        }
    }

    interface Counted {
        long count(int some, long more, Object other);
    }

    static class Square implements Shape {
        final int side;

        Square(int side) {
            this.side = side;
        }

        public int area() {
            return side * side;
        }
    }

    static class Tile extends Square implements Named, Counted {
        Tile(int side) {
            super(side);
        }

        public char letter() {
            return 't';
        }

        public long count(int some, long more, Object other) {
            return other == this ? some + more : some - more;
        }
    }

    static final class Wide extends Tile {
        Wide(int side) {
            super(side);
        }

        @Override
        public int area() {
            return 5 * side;
        }

        @Override
        public int doubled() {
            return 7;
        }

        @Override
        public boolean equals(Object other) {
            return other instanceof Wide && ((Wide) other).side == side;
        }

        @Override
        public int hashCode() {
            return side;
        }
    }

    static int sum(Shape[] shapes) {
        int sum = 0;
        for (Shape shape : shapes) {
            sum = 10 * sum + shape.area() + shape.doubled();
        }
        return sum;
    }

    static int none(Shape shape) {
        try {
            return shape.area();
        } catch (NullPointerException refusal) {
            return -1;
        }
    }

    static int wrong(Object other) {
        try {
            return ((Shape) other).area();
        } catch (ClassCastException refusal) {
            return -2;
        }
    }

    public static void main(String[] args) {
        Shape[] shapes = {new Square(2), new Tile(3), new Wide(4), new Tile(1)};
        System.out.println(sum(shapes));
        Named named = new Tile(6);
        System.out.println(named.letter());
        System.out.println(named.doubled());
        Counted counted = (Counted) shapes[1];
        System.out.println(counted.count(4, 5000000000L, counted));
        System.out.println(counted.count(4, 5000000000L, null));
        System.out.println(new Wide(3).doubled());
        Named wide = new Wide(3);
        System.out.println(wide.doubled());
        System.out.println(wide.equals(new Wide(3)));
        System.out.println(wide.equals(named));
        System.out.println(wide.hashCode());
        System.out.println(none(null));
        System.out.println(wrong(new int[1]));
        Shape own = new Shape() {
            public int area() {
                return shapes.length;
            }
        };
        System.out.println(own.doubled());
        long sum = 0L;
        for (int i = 0; i < 1000; i++) {
            sum += shapes[i & 3].area();
        }
        System.out.println(sum);
    }
}
