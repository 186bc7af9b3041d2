package calculator;

/** A number. */
final class Literal implements Term {
    private final int value;

    Literal(int value) {
        this.value = value;
    }

    public int value(int n) {
        return value;
    }

    public int size() {
        return 1;
    }

    public void show(StringBuilder text) {
        text.append(value);
    }

    /** The literals 0 and 1 again and again; nothing calls it. */
    static Literal small(int value) {
        return value == 0 ? Holder.ZERO : Holder.ONE;
    }

    private static class Holder {
        static final Literal ZERO = new Literal(0);
        static final Literal ONE = new Literal(1);
    }
}
