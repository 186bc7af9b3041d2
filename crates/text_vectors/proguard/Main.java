package demo;

public class Main {
    static int calls;
    private final Counter counter = new Counter();

    private int twice(int n) {
        calls++;
        return n * 2;
    }

    public static void main(String[] args) {
        Main m = new Main();
        for (String arg : args) {
            m.counter.add(arg, m.twice(arg.length()));
        }
        System.out.println(m.counter.total() + " " + calls);
    }
}
