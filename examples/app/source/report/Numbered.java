package report;

/** A line behind its number. */
class Numbered extends Line {
    private final int number;

    Numbered(String text, int number) {
        super(text);
        this.number = number;
    }

    @Override
    String line() {
        return number + ". " + super.line();
    }
}
