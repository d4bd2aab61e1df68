package java.util;

/**
 * A map each of whose operations is done under its lock; not its iterators. Neither keys nor values are null.
 *
 * Entries come in the order of Java 8: buckets by the remainder of the hash code, the last one first, twice as many
 * and one more where three quarters are used; in each the one first that came last. Left out: Dictionary, load
 * factors (a float), `clone`, what takes a function.
 */
public class Hashtable<K, V> extends AbstractMap<K, V> implements java.io.Serializable {
    static final class Node<K, V> extends AbstractMap.SimpleEntry<K, V> {
        final int hash;
        Node<K, V> next;

        Node(int hash, K key, V value, Node<K, V> next) {
            super(key, value);
            this.hash = hash;
            this.next = next;
        }

        public V setValue(V value) {
            return super.setValue(Objects.requireNonNull(value));
        }
    }

    private Node<K, V>[] table;
    private int size;
    int modCount;

    public Hashtable() {
        this(11);
    }

    public Hashtable(int capacity) {
        if (capacity < 0) {
            throw new IllegalArgumentException("Illegal Capacity: " + capacity);
        }
        table = newTable(capacity == 0 ? 1 : capacity);
    }

    public Hashtable(Map<? extends K, ? extends V> others) {
        this(others.size() < 6 ? 11 : 2 * others.size());
        putAll(others);
    }

    @SuppressWarnings("unchecked")
    private static <K, V> Node<K, V>[] newTable(int length) {
        return (Node<K, V>[]) new Node[length];
    }

    private int bucket(int hash) {
        return (hash & 0x7fffffff) % table.length;
    }

    public synchronized int size() {
        return size;
    }

    public synchronized boolean isEmpty() {
        return size == 0;
    }

    protected synchronized Map.Entry<K, V> entry(Object key) {
        return node(key.hashCode(), key);
    }

    private Node<K, V> node(int hash, Object key) {
        for (Node<K, V> node = table[bucket(hash)]; node != null; node = node.next) {
            if (node.hash == hash && node.key.equals(key)) {
                return node;
            }
        }
        return null;
    }

    public synchronized V getOrDefault(Object key, V other) {
        return super.getOrDefault(key, other);
    }

    public synchronized boolean containsValue(Object value) {
        return super.containsValue(Objects.requireNonNull(value));
    }

    public boolean contains(Object value) {
        return containsValue(value);
    }

    public synchronized V put(K key, V value) {
        Objects.requireNonNull(value);
        int hash = key.hashCode();
        Node<K, V> node = node(hash, key);
        if (node != null) {
            return node.setValue(value);
        }
        modCount++;
        if (size >= table.length - (table.length + 3 >> 2)) {
            grow();
        }
        int at = bucket(hash);
        table[at] = new Node<K, V>(hash, key, value, table[at]);
        size++;
        return null;
    }

    private void grow() {
        Node<K, V>[] old = table;
        table = newTable(2 * old.length + 1);
        for (int from = old.length - 1; from >= 0; from--) {
            Node<K, V> next;
            for (Node<K, V> node = old[from]; node != null; node = next) {
                next = node.next;
                int at = bucket(node.hash);
                node.next = table[at];
                table[at] = node;
            }
        }
    }

    public synchronized V remove(Object key) {
        int hash = key.hashCode();
        int at = bucket(hash);
        Node<K, V> before = null;
        for (Node<K, V> node = table[at]; node != null; before = node, node = node.next) {
            if (node.hash == hash && node.key.equals(key)) {
                if (before == null) {
                    table[at] = node.next;
                } else {
                    before.next = node.next;
                }
                modCount++;
                size--;
                return node.value;
            }
        }
        return null;
    }

    public synchronized void putAll(Map<? extends K, ? extends V> others) {
        super.putAll(others);
    }

    public synchronized V putIfAbsent(K key, V value) {
        Objects.requireNonNull(value);
        return super.putIfAbsent(key, value);
    }

    public synchronized boolean remove(Object key, Object value) {
        return super.remove(key, Objects.requireNonNull(value));
    }

    public synchronized boolean replace(K key, V old, V value) {
        Objects.requireNonNull(value);
        return super.replace(key, Objects.requireNonNull(old), value);
    }

    public synchronized V replace(K key, V value) {
        return super.replace(key, Objects.requireNonNull(value));
    }

    public synchronized void clear() {
        modCount++;
        for (int at = 0; at < table.length; at++) {
            table[at] = null;
        }
        size = 0;
    }

    public synchronized boolean equals(Object other) {
        return super.equals(other);
    }

    public synchronized int hashCode() {
        return super.hashCode();
    }

    public synchronized String toString() {
        return super.toString();
    }

    public Enumeration<K> keys() {
        return new Vector.Elements<K>(keySet().iterator());
    }

    public Enumeration<V> elements() {
        return new Vector.Elements<V>(values().iterator());
    }

    public Set<Map.Entry<K, V>> entrySet() {
        return new Entries<K, V>(this);
    }

    /** The entry behind one in the order of iteration, behind none the first; null where there is none. */
    synchronized Node<K, V> nodeBehind(Node<K, V> node) {
        if (node != null && node.next != null) {
            return node.next;
        }
        int at = node == null ? table.length - 1 : bucket(node.hash) - 1;
        while (at >= 0 && table[at] == null) {
            at--;
        }
        return at < 0 ? null : table[at];
    }

    static final class Entries<K, V> extends AbstractSet<Map.Entry<K, V>> {
        private final Hashtable<K, V> map;

        Entries(Hashtable<K, V> map) {
            this.map = map;
        }

        public int size() {
            return map.size();
        }

        public void clear() {
            map.clear();
        }

        public Iterator<Map.Entry<K, V>> iterator() {
            return new Walk<K, V>(map);
        }
    }

    static final class Walk<K, V> implements Iterator<Map.Entry<K, V>> {
        private final Hashtable<K, V> map;
        private Node<K, V> next;
        private Node<K, V> last;
        private int count;

        Walk(Hashtable<K, V> map) {
            this.map = map;
            next = map.nodeBehind(null);
            count = map.modCount;
        }

        private void check() {
            if (map.modCount != count) {
                throw new ConcurrentModificationException();
            }
        }

        public boolean hasNext() {
            return next != null;
        }

        public Map.Entry<K, V> next() {
            check();
            if (next == null) {
                throw new NoSuchElementException("Hashtable Enumerator");
            }
            last = next;
            next = map.nodeBehind(last);
            return last;
        }

        public void remove() {
            if (last == null) {
                throw new IllegalStateException("Hashtable Enumerator");
            }
            check();
            map.remove(last.key);
            last = null;
            count = map.modCount;
        }
    }
}
