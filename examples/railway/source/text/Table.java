package text;

/** What stands under names, in a table of chains. */
public final class Table {
    private Entry[] chains = new Entry[4];
    private int size;

    /** One name with what stands under it. */
    private final class Entry {
        private final String name;
        private final Entry next;
        private Object value;

        Entry(String name, Object value, Entry next) {
            this.name = name;
            this.value = value;
            this.next = next;
            size++;
        }
    }

    public Object find(String name) {
        Entry entry = entryOf(name);
        return entry == null ? null : entry.value;
    }

    public void put(String name, Object value) {
        Entry entry = entryOf(name);
        if (entry != null) {
            entry.value = value;
            return;
        }
        if (size >= chains.length) {
            grow();
        }
        int place = placeOf(name);
        chains[place] = new Entry(name, value, chains[place]);
    }

    public int size() {
        return size;
    }

    private Entry entryOf(String name) {
        for (Entry entry = chains[placeOf(name)]; entry != null; entry = entry.next) {
            if (entry.name.equals(name)) {
                return entry;
            }
        }
        return null;
    }

    private int placeOf(String name) {
        return (name.hashCode() & 0x7fffffff) % chains.length;
    }

    private void grow() {
        Entry[] old = chains;
        chains = new Entry[old.length * 2];
        size = 0;
        for (int i = 0; i < old.length; i++) {
            for (Entry entry = old[i]; entry != null; entry = entry.next) {
                int place = placeOf(entry.name);
                chains[place] = new Entry(entry.name, entry.value, chains[place]);
            }
        }
    }
}
