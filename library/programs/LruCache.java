import java.util.LinkedHashMap;
import java.util.Map;

/** A cache that forgets what was not asked for the longest time. */
class LruCache<K, V> {
    private final LinkedHashMap<K, V> entries;
    private int hits;
    private int misses;

    LruCache(final int capacity) {
        entries = new LinkedHashMap<K, V>() {
            @Override
            protected boolean removeEldestEntry(Map.Entry<K, V> eldest) {
                return size() > capacity;
            }
        };
    }

    synchronized V get(K key) {
        V value = entries.remove(key);
        if (value == null) {
            misses++;
        } else {
            hits++;
            entries.put(key, value);
        }
        return value;
    }

    synchronized void put(K key, V value) {
        entries.remove(key);
        entries.put(key, value);
    }

    @Override
    public synchronized String toString() {
        return entries + " " + hits + " hits, " + misses + " misses";
    }

    public static void main(String[] args) {
        LruCache<String, Integer> cache = new LruCache<String, Integer>(3);
        String[] names = {"one", "two", "three", "one", "four", "two", "one", "five", "three", "three"};
        for (String name : names) {
            Integer length = cache.get(name);
            if (length == null) {
                cache.put(name, name.length());
            }
            System.out.println(name + (length == null ? " is computed: " : " is kept: ") + cache);
        }
    }
}
