import java.io.IOException;

/**
 * An interpreter of a small language, whose program stands on standard input: numbers, variables, {@code =}, {@code while}, {@code if},
 * {@code print}, and blocks in braces. A program is read into a tree of statements and expressions, and the tree is run.
 */
public class Interpreter {
    interface Expression {
        long value(Variables variables);
    }

    interface Statement {
        void run(Variables variables);
    }

    static final class Wrong extends RuntimeException {
        Wrong(String message) {
            super(message);
        }
    }

    static final class Variables {
        private String[] names = new String[2];
        private long[] values = new long[2];
        private int count;

        private int find(String name) {
            for (int i = 0; i < count; i++) {
                if (names[i].equals(name)) {
                    return i;
                }
            }
            return -1;
        }

        long get(String name) {
            int at = find(name);
            if (at < 0) {
                throw new Wrong(name + " has no value");
            }
            return values[at];
        }

        void set(String name, long value) {
            int at = find(name);
            if (at < 0) {
                if (count == names.length) {
                    String[] moreNames = new String[2 * count];
                    long[] moreValues = new long[2 * count];
                    System.arraycopy(names, 0, moreNames, 0, count);
                    System.arraycopy(values, 0, moreValues, 0, count);
                    names = moreNames;
                    values = moreValues;
                }
                at = count++;
                names[at] = name;
            }
            values[at] = value;
        }
    }

    static final class Constant implements Expression {
        private final long number;

        Constant(long number) {
            this.number = number;
        }

        public long value(Variables variables) {
            return number;
        }
    }

    static final class Name implements Expression {
        private final String name;

        Name(String name) {
            this.name = name;
        }

        public long value(Variables variables) {
            return variables.get(name);
        }
    }

    static final class Binary implements Expression {
        private final String operator;
        private final Expression left;
        private final Expression right;

        Binary(String operator, Expression left, Expression right) {
            this.operator = operator;
            this.left = left;
            this.right = right;
        }

        public long value(Variables variables) {
            long one = left.value(variables);
            long other = right.value(variables);
            switch (operator) {
                case "+":
                    return one + other;
                case "-":
                    return one - other;
                case "*":
                    return one * other;
                case "/":
                    return one / other;
                case "%":
                    return one % other;
                case "<":
                    return one < other ? 1 : 0;
                default:
                    return one == other ? 1 : 0;
            }
        }
    }

    static final class Assignment implements Statement {
        private final String name;
        private final Expression expression;

        Assignment(String name, Expression expression) {
            this.name = name;
            this.expression = expression;
        }

        public void run(Variables variables) {
            variables.set(name, expression.value(variables));
        }
    }

    static final class Print implements Statement {
        private final Expression expression;

        Print(Expression expression) {
            this.expression = expression;
        }

        public void run(Variables variables) {
            System.out.println(expression.value(variables));
        }
    }

    /** A block that is run while, or if, a condition holds. */
    static final class Conditional implements Statement {
        private final boolean repeated;
        private final Expression condition;
        private final Block block;

        Conditional(boolean repeated, Expression condition, Block block) {
            this.repeated = repeated;
            this.condition = condition;
            this.block = block;
        }

        public void run(Variables variables) {
            while (condition.value(variables) != 0) {
                block.run(variables);
                if (!repeated) {
                    return;
                }
            }
        }
    }

    static final class Block implements Statement {
        private final Statement first;
        private final Block rest;

        Block(Statement first, Block rest) {
            this.first = first;
            this.rest = rest;
        }

        public void run(Variables variables) {
            for (Block block = this; block != null; block = block.rest) {
                block.first.run(variables);
            }
        }
    }

    private final String text;
    private int at;

    Interpreter(String text) {
        this.text = text;
    }

    private char next() {
        while (at < text.length() && text.charAt(at) <= ' ') {
            at++;
        }
        return at < text.length() ? text.charAt(at) : '\0';
    }

    private boolean takes(char unit) {
        boolean is = next() == unit;
        if (is) {
            at++;
        }
        return is;
    }

    private void expect(char unit) {
        if (!takes(unit)) {
            throw new Wrong("'" + unit + "' expected at " + at);
        }
    }

    private static boolean isLetter(char unit) {
        return unit >= 'a' && unit <= 'z';
    }

    private static boolean isDigit(char unit) {
        return unit >= '0' && unit <= '9';
    }

    private String word() {
        int from = at;
        while (at < text.length() && isLetter(text.charAt(at))) {
            at++;
        }
        return text.substring(from, at);
    }

    private Expression simple() {
        char unit = next();
        if (takes('(')) {
            Expression inner = comparison();
            expect(')');
            return inner;
        }
        if (isLetter(unit)) {
            return new Name(word());
        }
        int from = at;
        while (at < text.length() && isDigit(text.charAt(at))) {
            at++;
        }
        if (from == at) {
            throw new Wrong("an expression expected at " + at);
        }
        return new Constant(Long.parseLong(text.substring(from, at)));
    }

    private Expression product() {
        Expression left = simple();
        for (char unit = next(); unit == '*' || unit == '/' || unit == '%'; unit = next()) {
            at++;
            left = new Binary(String.valueOf(unit), left, simple());
        }
        return left;
    }

    private Expression sum() {
        Expression left = product();
        for (char unit = next(); unit == '+' || unit == '-'; unit = next()) {
            at++;
            left = new Binary(String.valueOf(unit), left, product());
        }
        return left;
    }

    private Expression comparison() {
        Expression left = sum();
        char unit = next();
        if (unit == '<' || unit == '=') {
            at++;
            return new Binary(String.valueOf(unit), left, sum());
        }
        return left;
    }

    private Statement statement() {
        next();
        String word = word();
        switch (word) {
            case "print":
                Print print = new Print(comparison());
                expect(';');
                return print;
            case "while":
            case "if":
                Expression condition = comparison();
                expect('{');
                Block block = block();
                expect('}');
                return new Conditional(word.equals("while"), condition, block);
            case "":
                throw new Wrong("a statement expected at " + at);
            default:
                expect('=');
                Assignment assignment = new Assignment(word, comparison());
                expect(';');
                return assignment;
        }
    }

    private Block block() {
        char unit = next();
        if (unit == '}' || unit == '\0') {
            return null;
        }
        Statement first = statement();
        return new Block(first, block());
    }

    void run() {
        Block program = block();
        if (at < text.length()) {
            throw new Wrong("a statement expected at " + at);
        }
        if (program != null) {
            program.run(new Variables());
        }
    }

    public static void main(String[] arguments) throws IOException {
        StringBuilder text = new StringBuilder();
        for (int unit = System.in.read(); unit >= 0; unit = System.in.read()) {
            text.append((char) unit);
        }
        try {
            new Interpreter(text.toString()).run();
        } catch (Wrong wrong) {
            System.out.println("wrong: " + wrong.getMessage());
            System.exit(2);
        }
    }
}
