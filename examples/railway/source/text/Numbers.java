package text;

/** Numbers in texts. */
final class Numbers {
    private Numbers() {}

    static int read(String digits) {
        int value = 0;
        for (int i = 0; i < digits.length(); i++) {
            value = value * 10 + digit(digits.charAt(i));
        }
        return value;
    }

    private static int digit(char c) {
        if (c < '0' || c > '9') {
            throw new IllegalArgumentException("no digit: " + c);
        }
        return c - '0';
    }

    static boolean isNumber(String text) {
        return !text.isEmpty() && text.charAt(0) >= '0' && text.charAt(0) <= '9';
    }
}
