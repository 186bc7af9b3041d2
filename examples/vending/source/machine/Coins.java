package machine;

/** The coins of the currency that the machine is built for. */
final class Coins {
    /** The largest coin of at most an amount; 0 where there is none. */
    static int largest(int amount) {
        int journal = Settings.JOURNAL;
        for (int value : values()) {
            if (value <= amount) {
                if (journal >= 2) {
                    Journal.put("coin", value);
                }
                return value;
            } else if (journal >= 3) {
                Journal.put("no coin", value);
            }
        }
        return 0;
    }

    /** Whether there is a coin of this value. */
    static boolean has(int value) {
        int looked = 0;
        for (int coin : values()) {
            looked++;
            if (coin == value) {
                return true;
            }
        }
        return false;
    }

    /** An amount as it is shown. */
    static String shown(int amount) {
        String sign;
        int digits = 0;
        switch (Settings.CURRENCY) {
        case Settings.EURO:
            sign = "EUR ";
            digits = 2;
            break;
        case Settings.KRONA:
            sign = "SEK ";
            break;
        case Settings.YEN:
            sign = "JPY ";
            break;
        default:
            throw new IllegalStateException("no currency");
        }
        if (digits == 0) {
            return sign + amount;
        }
        int rest = amount % 100;
        return sign + amount / 100 + (rest < 10 ? ".0" : ".") + rest;
    }

    private static int[] values() {
        switch (Settings.CURRENCY) {
        case Settings.EURO:
            return new int[] {200, 100, 50, 20, 10};
        case Settings.KRONA:
            return new int[] {20, 10, 5, 2, 1};
        default:
            return new int[] {500, 100, 50, 10};
        }
    }
}
