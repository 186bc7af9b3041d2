package text;

/** The words of a line, one after the other. */
public final class Words {
    private final String line;
    private int at;

    public Words(String line) {
        this.line = line;
    }

    public boolean hasNext() {
        while (at < line.length() && line.charAt(at) == ' ') {
            at++;
        }
        return at < line.length();
    }

    public String next() throws BadTextException {
        if (!hasNext()) {
            throw new BadTextException("a word is missing in: " + line);
        }
        int start = at;
        while (at < line.length() && line.charAt(at) != ' ') {
            at++;
        }
        return line.substring(start, at);
    }

    /** A number that stands as digits alone. */
    public int nextNumber() throws BadTextException {
        String word = next();
        try {
            return Numbers.read(word);
        } catch (IllegalArgumentException cause) {
            throw new BadTextException("no number in: " + line, cause);
        }
    }

    int rest() {
        return line.length() - at;
    }
}
