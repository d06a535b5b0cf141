package away;

public class Second extends near.First {
    public int seen() {
        return 2;
    }

    public static int calls(Second one) {
        return one.seen();
    }
}
