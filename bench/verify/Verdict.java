import java.util.regex.Matcher;
import java.util.regex.Pattern;

/** What one of the two says of a class: accepted, not verified, at a place if it says one, or refused otherwise. */
record Verdict(Kind kind, String method, int place, String text) {
    enum Kind { ACCEPTED, NOT_VERIFIED, OTHER }

    private static final Pattern LOCATION = Pattern.compile("Location:\\s+(\\S+)\\.([^.\\s]+\\(\\S*)\\s+@(-?\\d+)");
    private static final Pattern E7 = Pattern.compile("cbvm: E7 not verified (\\S+) (\\S+) (\\d+)");

    static Verdict accepted() {
        return new Verdict(Kind.ACCEPTED, "", -1, "accepted");
    }

    /** That of HotSpot, by what it threw. Whatever it finds wrong with a `StackMapTable` is of the verifier. */
    static Verdict ofError(Throwable thrown) {
        String message = String.valueOf(thrown.getMessage());
        String line = message.lines().findFirst().orElse("").replaceFirst(" in (class|method).*", "");
        Matcher location = LOCATION.matcher(message);
        boolean isPlaced = location.find();
        String method = isPlaced ? location.group(2) : "";
        int place = isPlaced ? Integer.parseInt(location.group(3)) : -1;
        boolean isVerifier = thrown instanceof VerifyError || line.startsWith("StackMapTable");
        String reason = message.lines().dropWhile(own -> !own.contains("Reason:")).skip(1).findFirst().orElse("").strip();
        return new Verdict(isVerifier ? Kind.NOT_VERIFIED : Kind.OTHER, method, place,
            thrown.getClass().getSimpleName() + ": " + line + (reason.isEmpty() ? "" : ": " + reason));
    }

    /** That of the program, by its last line. A class of which a step is made, the one that it is given, is accepted. */
    static Verdict ofLine(int status, String line) {
        Matcher failed = E7.matcher(line);
        if (failed.matches()) {
            return new Verdict(Kind.NOT_VERIFIED, failed.group(2), Integer.parseInt(failed.group(3)), line);
        }
        boolean isAccepted = status == 0 || line.startsWith("cbvm: budget spent");
        return isAccepted ? new Verdict(Kind.ACCEPTED, "", -1, "accepted") : new Verdict(Kind.OTHER, "", -1, line);
    }

    boolean refuses() {
        return kind != Kind.ACCEPTED;
    }

    String said() {
        return text + (place >= 0 && !text.startsWith("cbvm") ? " @" + place : "");
    }
}
