package network;

import text.BadTextException;

/** No station has a name. */
public final class UnknownStationException extends BadTextException {
    private final String name;

    UnknownStationException(String name) {
        super("no station " + name);
        this.name = name;
    }

    public String name() {
        return name;
    }
}
