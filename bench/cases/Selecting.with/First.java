package near;

public class First {
    int seen() {
        return 1;
    }

    public int asks() {
        return seen();
    }

    public static int calls(First one) {
        return one.seen();
    }
}
