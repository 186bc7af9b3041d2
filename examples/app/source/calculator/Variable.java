package calculator;

/** The variable n. */
final class Variable implements Term {
    public int value(int n) {
        return n;
    }

    public int size() {
        return 1;
    }

    public void show(StringBuilder text) {
        text.append('n');
    }
}
