package demo;

class Counter {
    private int sum;
    private String[] names = new String[4];
    private int used;

    void add(String name, int n) {
        names[used++ & 3] = name;
        sum += clamp(n);
    }

    private static int clamp(int n) {
        if (n < 0) {
            return 0;
        }
        return Math.min(n, 100);
    }

    long total() {
        return sum;
    }

    static class Unused {
        void never() {
        }
    }
}
