/** Figures of several kinds: an abstract class, and what each of its classes makes of it. */
public class Figures {
    abstract static class Figure {
        private static int made;
        final int number;

        Figure() {
            made++;
            number = made;
        }

        abstract int area();

        int doubled() {
            return 2 * area();
        }
    }

    static class Rectangle extends Figure {
        final int width;
        final int height;

        Rectangle(int width, int height) {
            this.width = width;
            this.height = height;
        }

        @Override
        int area() {
            return width * height;
        }
    }

    static final class Square extends Rectangle {
        Square(int side) {
            super(side, side);
        }

        @Override
        int doubled() {
            return -super.doubled();
        }
    }

    public static void main(String[] arguments) {
        Figure[] all = {new Rectangle(3, 4), new Square(5), new Rectangle(7, 1)};
        for (Figure figure : all) {
            System.out.print(figure.number);
            System.out.print(' ');
            System.out.print(figure.area());
            System.out.print(' ');
            System.out.println(figure.doubled());
        }
        System.out.println(all[1] instanceof Square);
        System.out.println(all[0] instanceof Square);
    }
}
