package search;

import network.Station;
import network.Track;

/** A station that is reached by a track, behind another step. */
final class Step {
    final Step before;
    final Track track;
    final Station station;
    final long cost;
    private final int number;
    private static int made = 0;

    Step(Station start) {
        this(null, null, start, 0L);
    }

    private Step(Step before, Track track, Station station, long cost) {
        this.before = before;
        this.track = track;
        this.station = station;
        this.cost = cost;
        number = made++;
    }

    Step along(Track next, Cost by) {
        return new Step(this, next, next.to, cost + by.of(station, line(), next));
    }

    String line() {
        return track == null ? null : track.line;
    }

    boolean isBefore(Step other) {
        return cost != other.cost ? cost < other.cost : number < other.number;
    }
}
