package machine;

/** The machine as a customer meets it: takes events one by one, and says what it does. */
public final class Controller {
    private static final int IDLE = 0;
    private static final int PAYING = 1;
    private static final int SERVING = 2;
    private static final int STUCK = 3;

    private final Stock stock = new Stock();
    private int state = IDLE;
    private int paid;

    /** Does a whole session. */
    public void session(String text) {
        int journal = Settings.JOURNAL;
        int sensors = Settings.SENSORS;
        Events events = new Events(text);
        for (int clock = 0; events.more(); clock++) {
            char letter = events.next();
            if (journal >= 1) {
                Journal.put("state " + state + " event " + letter, events.number);
            }
            if (sensors > 0 && clock % sensors == 0 && isOpen()) {
                say("close the door");
                continue;
            }
            step(letter, events.number);
        }
        back();
    }

    /** One event, in the state that the ones before it have left. */
    private void step(char letter, int number) {
        switch (state) {
        case IDLE:
        case PAYING:
            switch (letter) {
            case 'c':
                coin(number);
                break;
            case 'p':
                press(number - 1);
                break;
            case 'r':
                back();
                break;
            case 'k':
                state = STUCK;
                say("out of order");
                break;
            default:
                break;
            }
            break;
        case SERVING:
            say("please take what is there");
            state = IDLE;
            break;
        case STUCK:
            if (letter == 'k') {
                state = paid > 0 ? PAYING : IDLE;
                say("at your service");
            }
            break;
        default:
            throw new IllegalStateException("state " + state);
        }
    }

    private void coin(int value) {
        if (!Coins.has(value)) {
            say("no such coin");
            return;
        }
        paid += value;
        state = PAYING;
        say(Coins.shown(paid));
    }

    private void press(int shelf) {
        if (!stock.has(shelf)) {
            say("sold out");
            return;
        }
        int price = stock.price(shelf);
        if (paid < price) {
            say(stock.name(shelf) + " is " + Coins.shown(price));
            return;
        }
        stock.take(shelf);
        paid -= price;
        say("here is your " + stock.name(shelf));
        state = tray();
        back();
    }

    /** The state of a machine of this model when something lies in its tray. */
    private static int tray() {
        switch (Settings.MODEL) {
        case Settings.COMPACT:
            return IDLE;
        case Settings.TOWER:
            return SERVING;
        default:
            return STUCK;
        }
    }

    /** Gives back what was paid. */
    private void back() {
        String text = "";
        while (paid > 0) {
            int value = Coins.largest(paid);
            if (value == 0) {
                break;
            }
            paid -= value;
            text = text + " " + value;
        }
        if (!text.isEmpty()) {
            say("back:" + text);
        }
        if (state == PAYING) {
            state = IDLE;
        }
    }

    private boolean isOpen() {
        boolean door = false;
        int heat = 0;
        if (heat > 90) {
            state = STUCK;
        }
        return door || state == STUCK;
    }

    private static void say(String text) {
        System.out.println("  " + text);
    }
}
