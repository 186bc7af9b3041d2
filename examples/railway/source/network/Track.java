package network;

/** The way from a station to the next one of a line. */
public final class Track {
    public final Station to;
    public final String line;
    public final int minutes;
    final int number;
    private static int made;

    Track(Station to, String line, int minutes) {
        this.to = to;
        this.line = line;
        this.minutes = minutes;
        this.number = ++made;
    }

    static int made() {
        return made;
    }
}
