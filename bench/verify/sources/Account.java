class Account {
    static int opened;
    private final int number;
    protected long cents;
    Account(int number, long cents) {
        assert number > 0 : "number";
        this.number = number;
        this.cents = cents;
        opened++;
    }
    Account(Account other, boolean empty) {
        this(other.number + 1, empty ? 0L : other.cents);
    }
    boolean pay(long... amounts) {
        long sum = 0;
        for (long amount : amounts) {
            if (amount < 0) return false;
            sum += amount;
        }
        if (sum > cents) return false;
        cents -= sum;
        return true;
    }
    static class Savings extends Account {
        private final Account source;
        private int rate;
        Savings(Account source, int rate) {
            super(source == null ? new Account(1, rate > 0 ? 5L : 0L) : source, source != null && rate < 0);
            this.source = source;
            try {
                this.rate = 100 / rate;
            } catch (ArithmeticException e) {
                this.rate = -1;
            }
        }
        long due() { return source == null || rate < 0 ? cents : (cents << rate) >>> 1; }
    }
    public static void main(String[] args) {
        Account own = new Account(7, 500L);
        System.out.println(own.pay(100L, args.length == 0 ? 50L : 60L));
        System.out.println(new Savings(own, 2).due());
    }
}
