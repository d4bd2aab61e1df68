package java.util;

/**
 * Values by keys that are found by their hash codes. Not for several threads at once.
 *
 * Entries come in the order of Java 8: buckets by the hash code, doubled where three quarters are used, or where one
 * of fewer than 64 has nine entries; each bucket is a chain in the order of insertion, and never a tree. Iterators
 * throw ConcurrentModificationException where the map was changed by others since. Left out: load factors (a float),
 * `clone`, what takes a function.
 */
public class HashMap<K, V> extends AbstractMap<K, V> implements java.io.Serializable {
    static class Node<K, V> extends AbstractMap.SimpleEntry<K, V> {
        final int hash;
        Node<K, V> next;
        /** Its neighbours in the order of insertion, in a LinkedHashMap alone. */
        Node<K, V> before;
        Node<K, V> behind;

        Node(int hash, K key, V value) {
            super(key, value);
            this.hash = hash;
        }
    }

    /** None before the first entry. */
    private Node<K, V>[] table;
    /** How long the first table is to be; 0 where nobody has said it. */
    private int capacity;
    private int size;
    int modCount;

    public HashMap() {
    }

    public HashMap(int capacity) {
        if (capacity < 0) {
            throw new IllegalArgumentException("Illegal initial capacity: " + capacity);
        }
        this.capacity = lengthFrom(capacity);
    }

    public HashMap(Map<? extends K, ? extends V> others) {
        putAll(others);
    }

    /** The least power of two that isn't less. */
    private static int lengthFrom(int least) {
        int length = 1;
        while (length < least) {
            length *= 2;
        }
        return length;
    }

    @SuppressWarnings("unchecked")
    private static <K, V> Node<K, V>[] newTable(int length) {
        return (Node<K, V>[]) new Node[length];
    }

    private static int hash(Object key) {
        int hash = Objects.hashCode(key);
        return hash ^ hash >>> 16;
    }

    /** Told of each entry that is put in, and of each that is taken out. */
    void linked(Node<K, V> node) {
    }

    void unlinked(Node<K, V> node) {
    }

    public int size() {
        return size;
    }

    protected Map.Entry<K, V> entry(Object key) {
        return node(hash(key), key);
    }

    private Node<K, V> node(int hash, Object key) {
        if (table == null) {
            return null;
        }
        for (Node<K, V> node = table[hash & table.length - 1]; node != null; node = node.next) {
            if (node.hash == hash && Objects.equals(key, node.key)) {
                return node;
            }
        }
        return null;
    }

    public V put(K key, V value) {
        return put(key, value, false);
    }

    public V putIfAbsent(K key, V value) {
        return put(key, value, true);
    }

    /** Puts a value in, or only where there is none. */
    private V put(K key, V value, boolean onlyIfAbsent) {
        int hash = hash(key);
        Node<K, V> node = node(hash, key);
        if (node != null) {
            V old = node.value;
            if (!onlyIfAbsent || old == null) {
                node.value = value;
            }
            return old;
        }
        node = new Node<K, V>(hash, key, value);
        if (table == null) {
            table = newTable(capacity == 0 ? 16 : capacity);
        }
        if (insert(node) > 8 && table.length < 64) {
            grow();
        }
        size++;
        modCount++;
        if (size > threeQuarters()) {
            grow();
        }
        linked(node);
        return null;
    }

    private int threeQuarters() {
        return table.length - (table.length + 3 >> 2);
    }

    public void putAll(Map<? extends K, ? extends V> others) {
        int count = others.size();
        int wanted = count + count / 3 + 1;
        if (table != null) {
            if (count > threeQuarters()) {
                grow();
            }
        } else if (count > 0 && wanted > capacity) {
            capacity = lengthFrom(wanted);
        }
        super.putAll(others);
    }

    /** How many stand in the bucket then. */
    private int insert(Node<K, V> node) {
        int at = node.hash & table.length - 1;
        Node<K, V> last = table[at];
        if (last == null) {
            table[at] = node;
            return 1;
        }
        int count = 2;
        while (last.next != null) {
            last = last.next;
            count++;
        }
        last.next = node;
        return count;
    }

    private void grow() {
        Node<K, V>[] old = table;
        table = newTable(2 * old.length);
        for (int at = 0; at < old.length; at++) {
            Node<K, V> next;
            for (Node<K, V> node = old[at]; node != null; node = next) {
                next = node.next;
                node.next = null;
                insert(node);
            }
        }
    }

    public V remove(Object key) {
        int hash = hash(key);
        if (table == null) {
            return null;
        }
        int at = hash & table.length - 1;
        Node<K, V> before = null;
        for (Node<K, V> node = table[at]; node != null; before = node, node = node.next) {
            if (node.hash == hash && Objects.equals(key, node.key)) {
                if (before == null) {
                    table[at] = node.next;
                } else {
                    before.next = node.next;
                }
                unlinked(node);
                size--;
                modCount++;
                return node.value;
            }
        }
        return null;
    }

    public void clear() {
        for (int at = 0; size > 0 && at < table.length; at++) {
            table[at] = null;
        }
        size = 0;
        modCount++;
    }

    /** The first entry in the order of iteration; null where there is none. */
    Node<K, V> firstNode() {
        return fromBucket(0);
    }

    /** The entry behind one in the order of iteration; null where there is none. */
    Node<K, V> nodeBehind(Node<K, V> node) {
        return node.next != null ? node.next : fromBucket((node.hash & table.length - 1) + 1);
    }

    private Node<K, V> fromBucket(int from) {
        for (int at = from; table != null && at < table.length; at++) {
            if (table[at] != null) {
                return table[at];
            }
        }
        return null;
    }

    public Set<Map.Entry<K, V>> entrySet() {
        return new Entries<K, V>(this);
    }

    static final class Entries<K, V> extends AbstractSet<Map.Entry<K, V>> {
        private final HashMap<K, V> map;

        Entries(HashMap<K, V> map) {
            this.map = map;
        }

        public int size() {
            return map.size();
        }

        public void clear() {
            map.clear();
        }

        public Iterator<Map.Entry<K, V>> iterator() {
            return new Walk<K, V>(map);
        }
    }

    static final class Walk<K, V> implements Iterator<Map.Entry<K, V>> {
        private final HashMap<K, V> map;
        private Node<K, V> next;
        private Node<K, V> last;
        private int count;

        Walk(HashMap<K, V> map) {
            this.map = map;
            next = map.firstNode();
            count = map.modCount;
        }

        private void check() {
            if (map.modCount != count) {
                throw new ConcurrentModificationException();
            }
        }

        public boolean hasNext() {
            return next != null;
        }

        public Map.Entry<K, V> next() {
            check();
            if (next == null) {
                throw new NoSuchElementException();
            }
            last = next;
            next = map.nodeBehind(last);
            return last;
        }

        public void remove() {
            if (last == null) {
                throw new IllegalStateException();
            }
            check();
            map.remove(last.key);
            last = null;
            count = map.modCount;
        }
    }
}
