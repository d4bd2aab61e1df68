package java.util;

/** What a map has by its set of entries alone. Its views go through that. */
public abstract class AbstractMap<K, V> implements Map<K, V> {
    protected AbstractMap() {
    }

    /** The entry of a key, of this library's own; null where there is none. */
    protected Map.Entry<K, V> entry(Object key) {
        for (Iterator<Map.Entry<K, V>> each = entrySet().iterator(); each.hasNext();) {
            Map.Entry<K, V> entry = each.next();
            if (Objects.equals(key, entry.getKey())) {
                return entry;
            }
        }
        return null;
    }

    public int size() {
        return entrySet().size();
    }

    public boolean isEmpty() {
        return size() == 0;
    }

    public boolean containsKey(Object key) {
        return entry(key) != null;
    }

    public boolean containsValue(Object value) {
        return values().contains(value);
    }

    public V get(Object key) {
        return getOrDefault(key, null);
    }

    public V getOrDefault(Object key, V other) {
        Map.Entry<K, V> entry = entry(key);
        return entry == null ? other : entry.getValue();
    }

    public V put(K key, V value) {
        throw new UnsupportedOperationException();
    }

    public V remove(Object key) {
        for (Iterator<Map.Entry<K, V>> each = entrySet().iterator(); each.hasNext();) {
            Map.Entry<K, V> entry = each.next();
            if (Objects.equals(key, entry.getKey())) {
                V old = entry.getValue();
                each.remove();
                return old;
            }
        }
        return null;
    }

    public void putAll(Map<? extends K, ? extends V> others) {
        for (Iterator<?> each = others.entrySet().iterator(); each.hasNext();) {
            @SuppressWarnings("unchecked")
            Map.Entry<K, V> entry = (Map.Entry<K, V>) each.next();
            put(entry.getKey(), entry.getValue());
        }
    }

    public void clear() {
        entrySet().clear();
    }

    public V putIfAbsent(K key, V value) {
        V old = get(key);
        if (old == null) {
            put(key, value);
        }
        return old;
    }

    public boolean remove(Object key, Object value) {
        Map.Entry<K, V> entry = entry(key);
        if (entry == null || !Objects.equals(entry.getValue(), value)) {
            return false;
        }
        remove(key);
        return true;
    }

    public boolean replace(K key, V old, V value) {
        Map.Entry<K, V> entry = entry(key);
        if (entry == null || !Objects.equals(entry.getValue(), old)) {
            return false;
        }
        entry.setValue(value);
        return true;
    }

    public V replace(K key, V value) {
        Map.Entry<K, V> entry = entry(key);
        return entry == null ? null : entry.setValue(value);
    }

    public Set<K> keySet() {
        return new Keys<K, V>(this);
    }

    public Collection<V> values() {
        return new Values<K, V>(this);
    }

    public boolean equals(Object other) {
        if (other == this) {
            return true;
        }
        if (!(other instanceof Map) || ((Map<?, ?>) other).size() != size()) {
            return false;
        }
        for (Iterator<Map.Entry<K, V>> each = entrySet().iterator(); each.hasNext();) {
            Map.Entry<K, V> entry = each.next();
            Map<?, ?> map = (Map<?, ?>) other;
            if (!map.containsKey(entry.getKey()) || !Objects.equals(entry.getValue(), map.get(entry.getKey()))) {
                return false;
            }
        }
        return true;
    }

    public int hashCode() {
        int sum = 0;
        for (Iterator<Map.Entry<K, V>> each = entrySet().iterator(); each.hasNext();) {
            sum += each.next().hashCode();
        }
        return sum;
    }

    public String toString() {
        StringBuilder made = new StringBuilder("{");
        String between = "";
        for (Iterator<Map.Entry<K, V>> each = entrySet().iterator(); each.hasNext();) {
            Map.Entry<K, V> entry = each.next();
            K key = entry.getKey();
            V value = entry.getValue();
            made.append(between).append(key == this ? "(this Map)" : key).append('=');
            made.append(value == this ? "(this Map)" : value);
            between = ", ";
        }
        return made.append('}').toString();
    }

    /** A key with its value, by itself. */
    public static class SimpleEntry<K, V> implements Map.Entry<K, V>, java.io.Serializable {
        final K key;
        V value;

        public SimpleEntry(K key, V value) {
            this.key = key;
            this.value = value;
        }

        public SimpleEntry(Map.Entry<? extends K, ? extends V> entry) {
            this(entry.getKey(), entry.getValue());
        }

        public K getKey() {
            return key;
        }

        public V getValue() {
            return value;
        }

        public V setValue(V value) {
            V old = this.value;
            this.value = value;
            return old;
        }

        public boolean equals(Object other) {
            if (!(other instanceof Map.Entry)) {
                return false;
            }
            Map.Entry<?, ?> entry = (Map.Entry<?, ?>) other;
            return Objects.equals(key, entry.getKey()) && Objects.equals(value, entry.getValue());
        }

        public int hashCode() {
            return Objects.hashCode(key) ^ Objects.hashCode(value);
        }

        public String toString() {
            return key + "=" + value;
        }
    }

    static final class Keys<K, V> extends AbstractSet<K> {
        private final AbstractMap<K, V> map;

        Keys(AbstractMap<K, V> map) {
            this.map = map;
        }

        public int size() {
            return map.size();
        }

        public boolean contains(Object key) {
            return map.containsKey(key);
        }

        public boolean remove(Object key) {
            boolean isThere = map.containsKey(key);
            map.remove(key);
            return isThere;
        }

        public void clear() {
            map.clear();
        }

        public Iterator<K> iterator() {
            return new KeyWalk<K, V>(map.entrySet().iterator());
        }
    }

    static final class Values<K, V> extends AbstractCollection<V> {
        private final AbstractMap<K, V> map;

        Values(AbstractMap<K, V> map) {
            this.map = map;
        }

        public int size() {
            return map.size();
        }

        public void clear() {
            map.clear();
        }

        public Iterator<V> iterator() {
            return new ValueWalk<K, V>(map.entrySet().iterator());
        }
    }

    static final class KeyWalk<K, V> implements Iterator<K> {
        private final Iterator<Map.Entry<K, V>> each;

        KeyWalk(Iterator<Map.Entry<K, V>> each) {
            this.each = each;
        }

        public boolean hasNext() {
            return each.hasNext();
        }

        public K next() {
            return each.next().getKey();
        }

        public void remove() {
            each.remove();
        }
    }

    static final class ValueWalk<K, V> implements Iterator<V> {
        private final Iterator<Map.Entry<K, V>> each;

        ValueWalk(Iterator<Map.Entry<K, V>> each) {
            this.each = each;
        }

        public boolean hasNext() {
            return each.hasNext();
        }

        public V next() {
            return each.next().getValue();
        }

        public void remove() {
            each.remove();
        }
    }
}
