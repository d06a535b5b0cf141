package near;

public class Third extends away.Second {
    public int seen() {
        return 10 * super.seen() + 3;
    }
}
