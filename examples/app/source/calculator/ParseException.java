package calculator;

/** A text is no sum. */
public class ParseException extends RuntimeException {
    private final int place;

    ParseException(int place, String message) {
        super(message);
        this.place = place;
    }

    /** Where in the text. */
    public int place() {
        return place;
    }
}
