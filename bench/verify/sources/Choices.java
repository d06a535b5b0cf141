class Choices {
    static int table(int n) {
        int sum = 0;
        switch (n) {
            case 0: return 7;
            case 1: sum += 3;
            case 2: sum++; break;
            case 4: { long big = n; sum += (int) big; break; }
            default: sum = -1;
        }
        return sum;
    }
    static String lookup(int n) {
        String word;
        switch (n) {
            case -1000: word = "low"; break;
            case 1000: word = "high"; break;
            default:
                switch (n % 3) {
                    case 0: word = "three"; break;
                    default: word = null;
                }
        }
        return word;
    }
    static int word(String word, boolean twice) {
        switch (word) {
            case "Aa": case "BB": return twice ? 2 : 1;
            case "C": return 3;
        }
        return 0;
    }
    public static void main(String[] args) {
        System.out.println(table(1) + word("BB", true));
        System.out.println(lookup(9));
    }
}
