package search;

/** Steps that wait, the cheapest first. */
final class Heap {
    private Step[] steps = new Step[8];
    private int count;

    boolean isEmpty() {
        return count == 0;
    }

    void add(Step step) {
        if (count == steps.length) {
            Step[] more = new Step[2 * count];
            for (int i = 0; i < count; i++) {
                more[i] = steps[i];
            }
            steps = more;
        }
        int at = count++;
        while (at > 0 && step.isBefore(steps[(at - 1) / 2])) {
            steps[at] = steps[(at - 1) / 2];
            at = (at - 1) / 2;
        }
        steps[at] = step;
    }

    Step takeFirst() {
        if (isEmpty()) {
            throw new IllegalStateException("nothing waits");
        }
        Step first = steps[0];
        Step last = steps[--count];
        steps[count] = null;
        int at = 0;
        for (int below = 1; below < count; below = 2 * at + 1) {
            if (below + 1 < count && steps[below + 1].isBefore(steps[below])) {
                below++;
            }
            if (!steps[below].isBefore(last)) {
                break;
            }
            steps[at] = steps[below];
            at = below;
        }
        steps[at] = last;
        return first;
    }

    int count() {
        return count;
    }
}
