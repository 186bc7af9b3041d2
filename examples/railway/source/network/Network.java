package network;

import text.BadTextException;
import text.Table;
import text.Words;

/** Stations and tracks, read line by line. */
public final class Network {
    private final Table stations = new Table();

    /** Reads one line: {@code junction NAME MINUTES} or {@code track LINE FROM TO MINUTES}. */
    public void read(String line) throws BadTextException {
        Words words = new Words(line);
        String kind = words.next();
        switch (kind) {
            case "junction":
                readJunction(words);
                break;
            case "track":
                readTrack(words);
                break;
            default:
                throw new BadTextException("what is " + kind + "?");
        }
        if (words.hasNext()) {
            throw new BadTextException("too much: " + words.next());
        }
    }

    private void readJunction(Words words) throws BadTextException {
        String name = words.next();
        stations.put(name, new Junction(name, words.nextNumber()));
    }

    private void readTrack(Words words) throws BadTextException {
        String line = words.next();
        Station from = stationOrNew(words.next());
        Station to = stationOrNew(words.next());
        int minutes = words.nextNumber();
        from.add(new Track(to, line, minutes));
        to.add(new Track(from, line, minutes));
    }

    private Station stationOrNew(String name) {
        Station station = (Station) stations.find(name);
        if (station == null) {
            station = new Station(name);
            stations.put(name, station);
        }
        return station;
    }

    public Station station(String name) throws UnknownStationException {
        Station station = (Station) stations.find(name);
        if (station == null) {
            throw new UnknownStationException(name);
        }
        return station;
    }

    public int size() {
        return stations.size();
    }
}
