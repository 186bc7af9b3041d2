package network;

/** A station where a change takes longer. */
final class Junction extends Station {
    private final int change;

    Junction(String name, int change) {
        super(name);
        this.change = change;
    }

    public int change() {
        return change;
    }

    String description() {
        return "junction " + super.description();
    }
}
