package calculator;

/** A sum, as it was read. */
public interface Term {
    /** The value, where the variable n has a value. */
    int value(int n);

    /** How many nodes it has. */
    int size();

    /** Appends it with all its parentheses. */
    void show(StringBuilder text);
}
