/** Tables, lookups, and switches on strings and constants of an enum. */
class Switches {
    enum Colour {
        RED, GREEN(3), BLUE {
            @Override
            int weight() {
                return 7;
            }
        };

        private final int weight;

        Colour() {
            this(1);
        }

        Colour(int weight) {
            this.weight = weight;
        }

        int weight() {
            return weight;
        }
    }

    static String table(int number) {
        String text = "none";
        switch (number) {
            case 1:
                text = "one";
                break;
            case 2:
                text = "two";
            case 3:
                text = text.concat(" or three");
                break;
            case 5:
                return "five";
            default:
                text = null;
        }
        return text;
    }

    static long lookup(int number) {
        switch (number) {
            case -1000:
                return 1L;
            case 0:
                long some = number + 5;
                return some * 2;
            case 1000000:
                throw new IllegalArgumentException("million");
            default:
                return Long.parseLong("12");
        }
    }

    static int words(String word) {
        switch (word) {
            case "first":
                return 1;
            case "second":
            case "third":
                return 2;
            default:
                return word.isEmpty() ? 0 : word.length();
        }
    }

    static int colours(Colour colour) {
        int sum = 0;
        for (Colour own : Colour.values()) {
            switch (own) {
                case RED:
                    sum += 1;
                    continue;
                case BLUE:
                    sum -= own.weight();
                    break;
                default:
                    sum += own.ordinal() + colour.compareTo(own);
            }
            sum *= 2;
        }
        return sum;
    }

    public static void main(String[] words) {
        System.out.println(table(2));
        System.out.println(lookup(0));
        System.out.println(words("third") + colours(Colour.valueOf("GREEN")));
    }
}
