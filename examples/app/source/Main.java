import calculator.ParseException;
import calculator.Parser;
import calculator.Term;
import report.Line;

/** Evaluates a few sums and prints each with its value. */
public class Main {
    private static final String[] SUMS = {"1+2*3", "(4-9)*n", "n/(n-7)", "2*(3", "n%5+-2"};

    /** Evaluates the sums and then each word for 3. A word that is no sum ends the program with its stack trace. */
    public static void main(String[] words) {
        evaluate(3);
        System.out.println(Line.of("nodes", size(0)));
        for (String word : words) {
            System.out.println(Line.of(word, Parser.parse(word).value(3)));
        }
    }

    /** Prints each sum with its value for a number n, and gives the sum of the values. */
    public static int evaluate(int n) {
        int total = 0;
        for (String sum : SUMS) {
            total += printed(sum, n);
        }
        System.out.println(Line.of("total", total));
        return total;
    }

    /** How many nodes the sum with a number has; 0 where it is none. */
    public static int size(int number) {
        try {
            return Parser.parse(SUMS[number]).size();
        } catch (ParseException | ArrayIndexOutOfBoundsException e) {
            return 0;
        }
    }

    private static int printed(String sum, int n) {
        try {
            Term term = Parser.parse(sum);
            int value = term.value(n);
            System.out.println(Line.of(sum, value));
            return value;
        } catch (ParseException e) {
            System.out.println(Line.fault(sum, e.place(), e.getMessage()));
        } catch (ArithmeticException e) {
            System.out.println(Line.fault(sum, -1, "no value"));
        }
        return 0;
    }

    /** Prints a sum as it was read; nothing calls it. */
    static void show(String sum) {
        StringBuilder text = new StringBuilder();
        Parser.parse(sum).show(text);
        System.out.println(text.toString());
    }
}
