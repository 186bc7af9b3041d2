package search;

import network.Station;
import text.Table;

/** The cheapest way between two stations, found when it is run. */
public final class Journey implements Runnable {
    private final Station from;
    private final Station to;
    private final Cost cost;
    private Step end;

    public Journey(Station from, Station to, Cost cost) {
        this.from = from;
        this.to = to;
        this.cost = cost;
    }

    public void run() {
        Table done = new Table();
        Heap heap = new Heap();
        heap.add(new Step(from));
        while (!heap.isEmpty()) {
            Step step = heap.takeFirst();
            if (step.station == to) {
                end = step;
                return;
            }
            String place = step.station.name() + " " + step.line();
            if (done.find(place) == null) {
                done.put(place, step);
                for (int i = 0; i < step.station.trackCount(); i++) {
                    heap.add(step.along(step.station.track(i), cost));
                }
            }
        }
        throw new NoWayException(from.name(), to.name());
    }

    /** A line for each train. */
    public String text() {
        StringBuilder text = new StringBuilder();
        new Writer(text).write(end);
        return text.append(end.cost).append(" ").append(cost.name()).toString();
    }

    /** Writes trains from the first on. */
    private final class Writer {
        private final StringBuilder text;

        Writer(StringBuilder text) {
            this.text = text;
        }

        void write(Step step) {
            if (step.before == null) {
                text.append("from ").append(from.name()).append('\n');
                return;
            }
            write(step.before);
            String line = step.before.line();
            if (line != null && !line.equals(step.line())) {
                text.append("  change at ").append(step.before.station.name()).append('\n');
            }
            text.append("  ").append(step.line()).append(" to ").append(step.station.name()).append('\n');
        }
    }
}
