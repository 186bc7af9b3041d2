package search;

import network.Station;
import network.Track;

/** What a step of a journey costs. */
public interface Cost {
    /** Of a track from a station, to which a line led; {@code null} at the start. */
    int of(Station from, String line, Track track);

    String name();
}
