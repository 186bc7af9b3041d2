package machine;

/** What the program is built for. The compiler writes these values where they are used, and leaves the choices by them. */
interface Settings {
    int EURO = 0, KRONA = 1, YEN = 2;
    int COMPACT = 0, TOWER = 1;

    /** The currency of the coins. */
    int CURRENCY = EURO;

    /** The model of the machine. */
    int MODEL = COMPACT;

    /** How much the journal tells: 0 nothing, 1 each event, 2 each coin too. */
    int JOURNAL = 0;

    /** How many events lie between two looks at the sensors; 0 where there are none. */
    int SENSORS = 0;

    /** Whether the machine gives everything for nothing. */
    boolean DEMONSTRATION = false;
}
