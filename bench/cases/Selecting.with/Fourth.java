package away;

public class Fourth extends near.Third {
    public int seen() {
        return 10 * super.seen() + 4;
    }
}
