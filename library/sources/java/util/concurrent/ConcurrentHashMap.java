package java.util.concurrent;

import java.util.AbstractMap;
import java.util.AbstractSet;
import java.util.Enumeration;
import java.util.Iterator;
import java.util.Map;
import java.util.NoSuchElementException;
import java.util.Objects;
import java.util.Set;

/**
 * A map for several threads. Neither keys nor values are null.
 *
 * What changes it is done under its lock; what looks a key up takes no lock, and reads volatile fields alone. Entries
 * come in the order of Java 8, but that a bucket is never a tree. Iterators and views go over what was there when they
 * were made, and never throw ConcurrentModificationException; what they remove is removed from the map. Left out: what
 * takes a function, sizes as a long, load factors.
 */
public class ConcurrentHashMap<K, V> extends AbstractMap<K, V> implements ConcurrentMap<K, V>, java.io.Serializable {
    /** A key with its value, and what is behind it in its bucket. */
    static final class Node<K, V> {
        final int hash;
        final K key;
        volatile V value;
        volatile Node<K, V> next;

        Node(int hash, K key, V value, Node<K, V> next) {
            this.hash = hash;
            this.key = key;
            this.value = value;
            this.next = next;
        }
    }

    static final class Bucket<K, V> {
        volatile Node<K, V> first;
    }

    private volatile Bucket<K, V>[] table;
    private volatile int size;
    /** Whether it has had an entry, or a length of its table was asked for. */
    private boolean isUsed;

    public ConcurrentHashMap() {
        table = newTable(16);
    }

    public ConcurrentHashMap(int capacity) {
        if (capacity < 0) {
            throw new IllegalArgumentException();
        }
        table = newTable(lengthFrom(capacity + (capacity >>> 1) + 1));
        isUsed = true;
    }

    public ConcurrentHashMap(Map<? extends K, ? extends V> others) {
        int wanted = lengthFrom(others.size() + (others.size() >>> 1) + 1);
        table = newTable(wanted < 16 ? 16 : wanted);
        isUsed = true;
        putAll(others);
    }

    @SuppressWarnings("unchecked")
    private static <K, V> Bucket<K, V>[] newTable(int length) {
        Bucket<K, V>[] made = (Bucket<K, V>[]) new Bucket[length];
        for (int at = 0; at < length; at++) {
            made[at] = new Bucket<K, V>();
        }
        return made;
    }

    /** The least power of two that isn't less. */
    private static int lengthFrom(int least) {
        int length = 1;
        while (length < least) {
            length *= 2;
        }
        return length;
    }

    private static int hash(Object key) {
        int hash = key.hashCode();
        return (hash ^ hash >>> 16) & 0x7fffffff;
    }

    private Node<K, V> node(int hash, Object key) {
        Bucket<K, V>[] buckets = table;
        for (Node<K, V> node = buckets[hash & buckets.length - 1].first; node != null; node = node.next) {
            if (node.hash == hash && Objects.equals(key, node.key)) {
                return node;
            }
        }
        return null;
    }

    public int size() {
        return size;
    }

    public boolean containsKey(Object key) {
        return node(hash(key), key) != null;
    }

    public boolean containsValue(Object value) {
        return super.containsValue(Objects.requireNonNull(value));
    }

    public boolean contains(Object value) {
        return containsValue(value);
    }

    public V getOrDefault(Object key, V other) {
        Node<K, V> node = node(hash(key), key);
        return node == null ? other : node.value;
    }

    public V put(K key, V value) {
        return put(hash(key), key, Objects.requireNonNull(value), false);
    }

    public V putIfAbsent(K key, V value) {
        return put(hash(key), key, Objects.requireNonNull(value), true);
    }

    /** Puts a value in, or only where there is none. */
    private synchronized V put(int hash, K key, V value, boolean onlyIfAbsent) {
        Node<K, V> node = node(hash, key);
        if (node == null) {
            add(new Node<K, V>(hash, key, value, null));
            return null;
        }
        V old = node.value;
        if (!onlyIfAbsent) {
            node.value = value;
        }
        return old;
    }

    private void add(Node<K, V> node) {
        isUsed = true;
        Bucket<K, V> bucket = table[node.hash & table.length - 1];
        int count = 0;
        Node<K, V> last = null;
        for (Node<K, V> each = bucket.first; each != null; each = each.next) {
            last = each;
            count++;
        }
        if (last == null) {
            bucket.first = node;
        } else {
            last.next = node;
        }
        if (count >= 8 && table.length < 64) {
            makeRoom(2 * table.length);
        }
        size++;
        while (size >= threeQuarters()) {
            grow();
        }
    }

    private int threeQuarters() {
        return table.length - (table.length >>> 2);
    }

    private void makeRoom(int count) {
        int wanted = lengthFrom(count + (count >>> 1) + 1);
        while (wanted > threeQuarters()) {
            grow();
        }
    }

    /** Doubles the table. Nodes of the old one stay as they are for those who read it. */
    private void grow() {
        Bucket<K, V>[] old = table;
        Bucket<K, V>[] made = newTable(2 * old.length);
        for (int at = 0; at < old.length; at++) {
            split(old[at].first, old.length, made[at], made[at + old.length]);
        }
        table = made;
    }

    /** Parts a chain by a bit of the hash. The longest end with one bit stays, the others are put before it. */
    private static <K, V> void split(Node<K, V> first, int bit, Bucket<K, V> low, Bucket<K, V> high) {
        Node<K, V> end = first;
        for (Node<K, V> node = first; node != null; node = node.next) {
            if ((node.hash & bit) != (end.hash & bit)) {
                end = node;
            }
        }
        if (end != null) {
            ((end.hash & bit) == 0 ? low : high).first = end;
        }
        for (Node<K, V> node = first; node != end; node = node.next) {
            Bucket<K, V> bucket = (node.hash & bit) == 0 ? low : high;
            bucket.first = new Node<K, V>(node.hash, node.key, node.value, bucket.first);
        }
    }

    public void putAll(Map<? extends K, ? extends V> others) {
        makeRoomFor(others.size());
        super.putAll(others);
    }

    private synchronized void makeRoomFor(int count) {
        if (!isUsed) {
            isUsed = true;
            table = newTable(lengthFrom(count + (count >>> 1) + 1));
        }
        makeRoom(count);
    }

    public V remove(Object key) {
        return removed(hash(key), key, null);
    }

    public boolean remove(Object key, Object value) {
        int hash = hash(key);
        return value != null && removed(hash, key, value) != null;
    }

    /** Takes out the entry of a key, of a given value alone where there is one; null where there is none. */
    private synchronized V removed(int hash, Object key, Object value) {
        Node<K, V> node = node(hash, key);
        if (node == null || value != null && !value.equals(node.value)) {
            return null;
        }
        Bucket<K, V> bucket = table[hash & table.length - 1];
        if (bucket.first == node) {
            bucket.first = node.next;
        } else {
            Node<K, V> before = bucket.first;
            while (before.next != node) {
                before = before.next;
            }
            before.next = node.next;
        }
        size--;
        return node.value;
    }

    public boolean replace(K key, V old, V value) {
        Objects.requireNonNull(value);
        return replaced(hash(key), key, Objects.requireNonNull(old), value) != null;
    }

    public V replace(K key, V value) {
        return replaced(hash(key), key, null, Objects.requireNonNull(value));
    }

    /** The value that there was, where it is replaced: a given one alone, or each. */
    private synchronized V replaced(int hash, Object key, Object old, V value) {
        Node<K, V> node = node(hash, key);
        if (node == null || old != null && !old.equals(node.value)) {
            return null;
        }
        V before = node.value;
        node.value = value;
        return before;
    }

    public synchronized void clear() {
        Bucket<K, V>[] buckets = table;
        for (int at = 0; at < buckets.length; at++) {
            buckets[at].first = null;
        }
        size = 0;
    }

    @SuppressWarnings("unchecked")
    synchronized Node<K, V>[] nodes() {
        Node<K, V>[] made = (Node<K, V>[]) new Node[size];
        int count = 0;
        Bucket<K, V>[] buckets = table;
        for (int at = 0; at < buckets.length; at++) {
            for (Node<K, V> node = buckets[at].first; node != null; node = node.next) {
                made[count++] = node;
            }
        }
        return made;
    }

    public Set<Map.Entry<K, V>> entrySet() {
        return new Entries<K, V>(this);
    }

    public KeySetView<K, V> keySet() {
        return new KeySetView<K, V>(this, null);
    }

    public KeySetView<K, V> keySet(V value) {
        return new KeySetView<K, V>(this, Objects.requireNonNull(value));
    }

    public static <T> KeySetView<T, Boolean> newKeySet() {
        return new KeySetView<T, Boolean>(new ConcurrentHashMap<T, Boolean>(), Boolean.TRUE);
    }

    public Enumeration<K> keys() {
        return new Each<K>(keySet().iterator());
    }

    public Enumeration<V> elements() {
        return new Each<V>(values().iterator());
    }

    static final class Each<T> implements Enumeration<T> {
        private final Iterator<T> each;

        Each(Iterator<T> each) {
            this.each = each;
        }

        public boolean hasMoreElements() {
            return each.hasNext();
        }

        public T nextElement() {
            return each.next();
        }
    }

    /** The keys, as a set to which others can be added where there is a value for them. */
    public static final class KeySetView<K, V> extends AbstractSet<K> implements java.io.Serializable {
        private final ConcurrentHashMap<K, V> map;
        private final V value;

        KeySetView(ConcurrentHashMap<K, V> map, V value) {
            this.map = map;
            this.value = value;
        }

        public ConcurrentHashMap<K, V> getMap() {
            return map;
        }

        public V getMappedValue() {
            return value;
        }

        public int size() {
            return map.size();
        }

        public boolean contains(Object key) {
            return map.containsKey(key);
        }

        public boolean add(K key) {
            if (value == null) {
                throw new UnsupportedOperationException();
            }
            return map.putIfAbsent(key, value) == null;
        }

        public boolean remove(Object key) {
            return map.remove(key) != null;
        }

        public void clear() {
            map.clear();
        }

        public Iterator<K> iterator() {
            return new KeyWalk<K>(map.entrySet().iterator());
        }
    }

    static final class KeyWalk<K> implements Iterator<K> {
        private final Iterator<? extends Map.Entry<K, ?>> each;

        KeyWalk(Iterator<? extends Map.Entry<K, ?>> each) {
            this.each = each;
        }

        public boolean hasNext() {
            return each.hasNext();
        }

        public K next() {
            return each.next().getKey();
        }

        public void remove() {
            each.remove();
        }
    }

    /** A key with the value that it had, which can be set in the map, too. */
    static final class MapEntry<K, V> extends AbstractMap.SimpleEntry<K, V> {
        private final ConcurrentHashMap<K, V> map;

        MapEntry(Node<K, V> node, ConcurrentHashMap<K, V> map) {
            super(node.key, node.value);
            this.map = map;
        }

        public V setValue(V value) {
            map.put(getKey(), value);
            return super.setValue(value);
        }
    }

    static final class Entries<K, V> extends AbstractSet<Map.Entry<K, V>> {
        private final ConcurrentHashMap<K, V> map;

        Entries(ConcurrentHashMap<K, V> map) {
            this.map = map;
        }

        public int size() {
            return map.size();
        }

        public void clear() {
            map.clear();
        }

        public Iterator<Map.Entry<K, V>> iterator() {
            return new Walk<K, V>(map);
        }
    }

    static final class Walk<K, V> implements Iterator<Map.Entry<K, V>> {
        private final ConcurrentHashMap<K, V> map;
        private final Node<K, V>[] nodes;
        private int at;

        Walk(ConcurrentHashMap<K, V> map) {
            this.map = map;
            nodes = map.nodes();
        }

        public boolean hasNext() {
            return at < nodes.length;
        }

        public Map.Entry<K, V> next() {
            if (at == nodes.length) {
                throw new NoSuchElementException();
            }
            return new MapEntry<K, V>(nodes[at++], map);
        }

        public void remove() {
            if (at == 0) {
                throw new IllegalStateException();
            }
            map.remove(nodes[at - 1].key);
        }
    }
}
