package java.util;

/**
 * Values by keys that stand in order, by a Comparator or their own order: arrays that are kept sorted.
 *
 * Not for several threads at once. Iterators throw ConcurrentModificationException where the map was changed by others
 * since. Left out: views of a part, `clone`, what takes a function.
 */
public class TreeMap<K, V> extends AbstractMap<K, V> implements NavigableMap<K, V>, java.io.Serializable {
    private final Comparator<? super K> order;
    private Object[] entries = new Object[8];
    private int size;
    int modCount;

    public TreeMap() {
        order = null;
    }

    public TreeMap(Comparator<? super K> order) {
        this.order = order;
    }

    public TreeMap(Map<? extends K, ? extends V> others) {
        order = null;
        putAll(others);
    }

    public TreeMap(SortedMap<K, ? extends V> others) {
        this(others.comparator());
        putAll(others);
    }

    public Comparator<? super K> comparator() {
        return order;
    }

    public int size() {
        return size;
    }

    @SuppressWarnings("unchecked")
    private int compare(Object a, Object b) {
        return order != null ? order.compare((K) a, (K) b) : ((Comparable<Object>) a).compareTo(b);
    }

    /** The first index whose key isn't below the given one. */
    private int firstFrom(Object key) {
        if (key == null && order == null) {
            throw new NullPointerException();
        }
        int from = 0;
        int to = size;
        while (from < to) {
            int middle = from + to >>> 1;
            if (compare(key, at(middle).getKey()) > 0) {
                from = middle + 1;
            } else {
                to = middle;
            }
        }
        return from;
    }

    private boolean isAt(int index, Object key) {
        return index < size && compare(key, at(index).getKey()) == 0;
    }

    @SuppressWarnings("unchecked")
    Map.Entry<K, V> at(int index) {
        return index < 0 || index >= size ? null : (Map.Entry<K, V>) entries[index];
    }

    protected Map.Entry<K, V> entry(Object key) {
        int index = firstFrom(key);
        return isAt(index, key) ? at(index) : null;
    }

    public V put(K key, V value) {
        if (size == 0) {
            compare(key, key);
        }
        int index = firstFrom(key);
        if (isAt(index, key)) {
            return at(index).setValue(value);
        }
        if (size == entries.length) {
            Object[] made = new Object[2 * size];
            for (int at = 0; at < size; at++) {
                made[at] = entries[at];
            }
            entries = made;
        }
        for (int at = size; at > index; at--) {
            entries[at] = entries[at - 1];
        }
        entries[index] = new AbstractMap.SimpleEntry<K, V>(key, value);
        size++;
        modCount++;
        return null;
    }

    public V remove(Object key) {
        int index = firstFrom(key);
        return isAt(index, key) ? removeAt(index).getValue() : null;
    }

    Map.Entry<K, V> removeAt(int index) {
        Map.Entry<K, V> entry = at(index);
        if (entry != null) {
            size--;
            for (int at = index; at < size; at++) {
                entries[at] = entries[at + 1];
            }
            entries[size] = null;
            modCount++;
        }
        return entry;
    }

    public void clear() {
        while (size > 0) {
            size--;
            entries[size] = null;
        }
        modCount++;
    }

    private K keyOf(Map.Entry<K, V> entry) {
        return entry == null ? null : entry.getKey();
    }

    private K present(Map.Entry<K, V> entry) {
        if (entry == null) {
            throw new NoSuchElementException();
        }
        return entry.getKey();
    }

    public K firstKey() {
        return present(at(0));
    }

    public K lastKey() {
        return present(at(size - 1));
    }

    public Map.Entry<K, V> firstEntry() {
        return at(0);
    }

    public Map.Entry<K, V> lastEntry() {
        return at(size - 1);
    }

    public Map.Entry<K, V> pollFirstEntry() {
        return removeAt(0);
    }

    public Map.Entry<K, V> pollLastEntry() {
        return removeAt(size - 1);
    }

    public Map.Entry<K, V> lowerEntry(K key) {
        return at(firstFrom(key) - 1);
    }

    public Map.Entry<K, V> floorEntry(K key) {
        int index = firstFrom(key);
        return at(isAt(index, key) ? index : index - 1);
    }

    public Map.Entry<K, V> ceilingEntry(K key) {
        return at(firstFrom(key));
    }

    public Map.Entry<K, V> higherEntry(K key) {
        int index = firstFrom(key);
        return at(isAt(index, key) ? index + 1 : index);
    }

    public K lowerKey(K key) {
        return keyOf(lowerEntry(key));
    }

    public K floorKey(K key) {
        return keyOf(floorEntry(key));
    }

    public K ceilingKey(K key) {
        return keyOf(ceilingEntry(key));
    }

    public K higherKey(K key) {
        return keyOf(higherEntry(key));
    }

    public Set<Map.Entry<K, V>> entrySet() {
        return new Entries<K, V>(this);
    }

    static final class Entries<K, V> extends AbstractSet<Map.Entry<K, V>> {
        private final TreeMap<K, V> map;

        Entries(TreeMap<K, V> map) {
            this.map = map;
        }

        public int size() {
            return map.size();
        }

        public void clear() {
            map.clear();
        }

        public Iterator<Map.Entry<K, V>> iterator() {
            return new Walk<K, V>(map);
        }
    }

    static final class Walk<K, V> implements Iterator<Map.Entry<K, V>> {
        private final TreeMap<K, V> map;
        private int next;
        private boolean mayRemove;
        private int count;

        Walk(TreeMap<K, V> map) {
            this.map = map;
            count = map.modCount;
        }

        private void check() {
            if (map.modCount != count) {
                throw new ConcurrentModificationException();
            }
        }

        public boolean hasNext() {
            return next < map.size();
        }

        public Map.Entry<K, V> next() {
            if (next >= map.size()) {
                throw new NoSuchElementException();
            }
            check();
            mayRemove = true;
            return map.at(next++);
        }

        public void remove() {
            if (!mayRemove) {
                throw new IllegalStateException();
            }
            check();
            map.removeAt(--next);
            mayRemove = false;
            count = map.modCount;
        }
    }
}
