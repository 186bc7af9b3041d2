package machine;

/** Cuts a session in events, each a letter and a number: {@code c100p1r} has three. */
final class Events {
    private static final int LETTER = 0;
    private static final int SIGN = 1;
    private static final int DIGITS = 2;

    private final String session;
    private int place;

    /** The number of the event that was read last. */
    int number;

    Events(String session) {
        this.session = session;
    }

    boolean more() {
        return place < session.length();
    }

    /** The letter of the next event. */
    char next() {
        boolean signs = false;
        int state = LETTER;
        char letter = ' ';
        number = 0;
        for (; more(); place++) {
            char c = session.charAt(place);
            switch (state) {
            case LETTER:
                if (c < 'a' || c > 'z') {
                    throw new IllegalArgumentException("no event: " + session.substring(place));
                }
                letter = c;
                state = signs ? SIGN : DIGITS;
                continue;
            case SIGN:
                state = DIGITS;
                if (c == '+') {
                    continue;
                }
                break;
            default:
                break;
            }
            if (c < '0' || c > '9') {
                break;
            }
            number = 10 * number + (c - '0');
        }
        return letter;
    }
}
