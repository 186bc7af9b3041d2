package calculator;

/** Decimal digits. */
final class Digits {
    private Digits() {
    }

    static boolean isDigit(char c) {
        return c >= '0' && c <= '9';
    }

    static int valueOf(char digit) {
        return digit - '0';
    }

    /** The digit of a value; nothing calls it. */
    static char of(int value) {
        return (char) ('0' + value);
    }
}
