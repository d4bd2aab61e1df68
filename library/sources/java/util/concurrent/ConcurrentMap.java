package java.util.concurrent;

import java.util.Map;

/** A map whose operations are each one step for other threads. Left out: what takes a function. */
public interface ConcurrentMap<K, V> extends Map<K, V> {
    V putIfAbsent(K key, V value);

    boolean remove(Object key, Object value);

    boolean replace(K key, V old, V value);

    V replace(K key, V value);
}
