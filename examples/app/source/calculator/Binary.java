package calculator;

/** Two terms with an operator between them. */
final class Binary implements Term {
    private final char operator;
    private final Term left;
    private final Term right;

    Binary(char operator, Term left, Term right) {
        this.operator = operator;
        this.left = left;
        this.right = right;
    }

    public int value(int n) {
        return apply(operator, left.value(n), right.value(n));
    }

    public int size() {
        return 1 + left.size() + right.size();
    }

    public void show(StringBuilder text) {
        text.append('(');
        left.show(text);
        text.append(operator);
        right.show(text);
        text.append(')');
    }

    static int apply(char operator, int left, int right) {
        switch (operator) {
            case '+':
                return left + right;
            case '-':
                return left - right;
            case '*':
                return left * right;
            case '/':
                return left / right;
            default:
                return left % right;
        }
    }

    /** How tightly an operator binds; nothing calls it. */
    static int strength(char operator) {
        return operator == '+' || operator == '-' ? 1 : 2;
    }
}
