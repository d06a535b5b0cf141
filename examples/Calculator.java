/** Values of arithmetic expressions, each one argument: a parser by recursive descent, with exceptions that say where it stopped. */
public class Calculator {
    static class BadExpression extends Exception {
        BadExpression(String what, int place) {
            super(what + " at " + place);
        }
    }

    private final String text;
    private int place;

    private Calculator(String text) {
        this.text = text;
    }

    static long value(String text) throws BadExpression {
        Calculator calculator = new Calculator(text);
        long value = calculator.sum();
        if (calculator.place < text.length()) {
            throw new BadExpression("an operator is missing", calculator.place);
        }
        return value;
    }

    private long sum() throws BadExpression {
        long value = product();
        while (true) {
            if (takes('+')) {
                value += product();
            } else if (takes('-')) {
                value -= product();
            } else {
                return value;
            }
        }
    }

    private long product() throws BadExpression {
        long value = factor();
        while (true) {
            if (takes('*')) {
                value *= factor();
            } else if (takes('/')) {
                value /= factor();
            } else {
                return value;
            }
        }
    }

    private long factor() throws BadExpression {
        if (takes('-')) {
            return -factor();
        }
        if (takes('(')) {
            long value = sum();
            if (!takes(')')) {
                throw new BadExpression("a parenthesis is missing", place);
            }
            return value;
        }
        int start = place;
        while (place < text.length() && text.charAt(place) >= '0' && text.charAt(place) <= '9') {
            place++;
        }
        if (start == place) {
            throw new BadExpression("a number is missing", place);
        }
        long value = Long.parseLong(text.substring(start, place));
        skipBlanks();
        return value;
    }

    private boolean takes(char sign) {
        skipBlanks();
        if (place < text.length() && text.charAt(place) == sign) {
            place++;
            return true;
        }
        return false;
    }

    private void skipBlanks() {
        while (place < text.length() && text.charAt(place) == ' ') {
            place++;
        }
    }

    public static void main(String[] arguments) {
        String[] texts = arguments.length > 0 ? arguments
                : new String[] {"1 + 2 * 3", "(1 + 2) * 3", "-(4 - 10) / 4", "7 / (3 - 3)", "2 * (3", "12 34", "99999999999999999999", ""};
        for (String text : texts) {
            System.out.print(text + " = ");
            try {
                System.out.println(value(text));
            } catch (BadExpression bad) {
                System.out.println(bad.getMessage());
            } catch (ArithmeticException divided) {
                System.out.println(divided.getMessage());
            } catch (NumberFormatException large) {
                System.out.println("a number is too large");
            }
        }
    }
}
