enum Suit {
    CLUBS('c', false), HEARTS('h', true), SPADES('s', false);
    private static final Suit[] RED;
    private static int count;
    static {
        Suit[] red = new Suit[1];
        for (Suit suit : values()) {
            if (suit.red) red[count++] = suit;
        }
        RED = red;
    }
    final char letter;
    private final boolean red;
    Suit(char letter, boolean red) { this.letter = letter; this.red = red; }
    static Suit of(char letter) {
        for (Suit suit : values()) {
            if (suit.letter == letter) return suit;
        }
        throw new IllegalArgumentException(String.valueOf(letter));
    }
    int worth() {
        switch (this) {
            case CLUBS: return 1;
            case SPADES: return 4;
            default: return red ? 2 : 3;
        }
    }
    public static void main(String[] args) {
        System.out.println(of('s').worth() + RED[0].worth());
        System.out.println(HEARTS);
    }
}
