package calculator;

/** Reads sums from left to right. */
public final class Parser {
    private final String text;
    private int place;

    private Parser(String text) {
        this.text = text;
    }

    /** The sum that a text is. */
    public static Term parse(String text) {
        Parser parser = new Parser(text);
        Term term = parser.sum();
        if (!parser.isAtEnd()) {
            throw new ParseException(parser.place, "operator expected");
        }
        return term;
    }

    /** Whether a text is a sum; nothing calls it. */
    public static boolean accepts(String text) {
        try {
            return parse(text) != null;
        } catch (ParseException e) {
            return false;
        }
    }

    private Term sum() {
        Term term = product();
        while (isNext('+') || isNext('-')) {
            term = new Binary(take(), term, product());
        }
        return term;
    }

    private Term product() {
        Term term = factor();
        while (isNext('*') || isNext('/') || isNext('%')) {
            term = new Binary(take(), term, factor());
        }
        return term;
    }

    private Term factor() {
        if (isNext('-')) {
            take();
            return new Binary('-', new Literal(0), factor());
        }
        if (isNext('(')) {
            take();
            Term term = sum();
            if (!isNext(')')) {
                throw new ParseException(place, ") expected");
            }
            take();
            return term;
        }
        if (isNext('n')) {
            take();
            return new Variable();
        }
        return number();
    }

    private Term number() {
        int first = place;
        int value = 0;
        while (!isAtEnd() && Digits.isDigit(text.charAt(place))) {
            value = value * 10 + Digits.valueOf(take());
        }
        if (place == first) {
            throw new ParseException(place, "number expected");
        }
        return new Literal(value);
    }

    private boolean isAtEnd() {
        return place == text.length();
    }

    private boolean isNext(char wanted) {
        return !isAtEnd() && text.charAt(place) == wanted;
    }

    private char take() {
        return text.charAt(place++);
    }
}
