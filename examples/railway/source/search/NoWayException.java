package search;

/** No way leads from a station to another. */
public class NoWayException extends RuntimeException {
    NoWayException(String from, String to) {
        super("no way from " + from + " to " + to);
    }
}
