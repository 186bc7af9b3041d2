package network;

/** A station with the tracks that leave it. */
public class Station implements Comparable {
    private final String name;
    private Track[] tracks = new Track[2];
    private int count;

    Station(String name) {
        this.name = name;
    }

    public String name() {
        return name;
    }

    public int trackCount() {
        return count;
    }

    public Track track(int i) {
        return tracks[i];
    }

    void add(Track track) {
        if (count == tracks.length) {
            Track[] more = new Track[2 * count];
            for (int i = 0; i < count; i++) {
                more[i] = tracks[i];
            }
            tracks = more;
        }
        tracks[count++] = track;
    }

    /** The minutes that a change of trains takes here. */
    public int change() {
        return 4;
    }

    public int compareTo(Object other) {
        return name.compareTo(((Station) other).name);
    }

    String description() {
        return name + " with " + count + " tracks";
    }
}
