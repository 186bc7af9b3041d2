package text;

/** A text has another form. */
public class BadTextException extends Exception {
    public BadTextException(String message) {
        super(message);
    }

    public BadTextException(String message, Throwable cause) {
        super(message, cause);
    }
}
