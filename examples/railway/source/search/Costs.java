package search;

import network.Station;
import network.Track;

/** The costs by their names. */
public final class Costs {
    private Costs() {}

    private abstract static class Named implements Cost {
        private final String name;

        Named(String name) {
            this.name = name;
        }

        public String name() {
            return name;
        }

        static boolean isChange(String line, Track track) {
            return line != null && !line.equals(track.line);
        }
    }

    /** Minutes, those of changes too. */
    private static final class Minutes extends Named {
        Minutes() {
            super("minutes");
        }

        public int of(Station from, String line, Track track) {
            return track.minutes + (isChange(line, track) ? from.change() : 0);
        }
    }

    /** By names; none where nothing is called so. */
    public static Cost named(String name) {
        if (name.equals("changes")) {
            return new Named("changes") {
                public int of(Station from, String line, Track track) {
                    return isChange(line, track) ? 1000 : 1;
                }
            };
        }
        return name.equals("minutes") ? new Minutes() : null;
    }

    static Cost free() {
        return new Named("free") {
            public int of(Station from, String line, Track track) {
                return 0;
            }
        };
    }
}
