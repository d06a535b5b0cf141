class Nothing {
    public static void main(String[] args) {
    }
}
