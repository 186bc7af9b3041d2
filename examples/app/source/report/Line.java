package report;

/** Lines of a report. */
public class Line {
    private static int count;

    protected final String text;

    protected Line(String text) {
        this.text = text;
    }

    /** A numbered line that says what a sum gives. */
    public static String of(String sum, int value) {
        return new Numbered(sum + " = " + value, ++count).line();
    }

    /** A numbered line that says what is wrong with a sum, and where, if that is known. */
    public static String fault(String sum, int place, String message) {
        String where = place < 0 ? "" : " at " + place;
        return new Numbered(sum + ": " + message + where, ++count).line();
    }

    /** How many lines were made; nothing calls it. */
    public static int count() {
        return count;
    }

    /** The line as it is printed. */
    String line() {
        return text;
    }
}
