import machine.Controller;

/** A vending machine. Each word is a session; without words there are some of its own. */
public final class Vending {
    private static final String[] SESSIONS = {"c100c50p1", "c50p2r", "c200c100p3p9", "kc100kc100", "c50c50c50p1p2", "p1p2c3"};

    public static void main(String[] words) {
        boolean quiet = false;
        Controller controller = new Controller();
        for (String session : words.length > 0 ? words : SESSIONS) {
            if (!quiet) {
                System.out.println(session);
            }
            controller.session(session);
        }
    }
}
