package machine;

/** What the machine has to sell. */
final class Stock {
    private final String[] names = {"coffee", "tea", "soup", "water", "cake", "nuts"};
    private final int[] prices = {120, 80, 250, 100, 210, 150};
    private final int[] counts;

    Stock() {
        int model = Settings.MODEL;
        int shelves = 0;
        if (model == Settings.COMPACT) {
            shelves = 3;
        } else if (model == Settings.TOWER) {
            shelves = 6;
        }
        counts = new int[shelves];
        for (int i = 0; i < shelves; i++) {
            counts[i] = 2;
        }
    }

    boolean has(int shelf) {
        try {
            return counts[shelf] > 0;
        } catch (ArrayIndexOutOfBoundsException fault) {
            return false;
        }
    }

    String name(int shelf) {
        return names[shelf];
    }

    int price(int shelf) {
        boolean free = Settings.DEMONSTRATION;
        return free ? 0 : prices[shelf];
    }

    void take(int shelf) {
        counts[shelf]--;
    }
}
