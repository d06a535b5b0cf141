class Lost extends Kept {
}

class Apart {
    public int has() {
        return 5;
    }
}

class Split implements Same, Again {
}

class Middle extends Upper {
    int found() {
        return 9;
    }
}
