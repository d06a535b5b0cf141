// differs: HotSpot keeps a high surrogate from one call of print to the next; here each call is encoded alone
// expected: "x??y\n=> returned"
public class PrintSplit { public static void main(String[] args) { System.out.print("x\ud83d"); System.out.println("\ude00y"); } }
