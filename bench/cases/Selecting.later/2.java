abstract class Kept implements Has {
    abstract int kept();
}

interface Again {
    default int same() {
        return 11;
    }
}
