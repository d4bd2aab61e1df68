package java.util;

/** A map in the order of its keys. Left out: views of a part. */
public interface SortedMap<K, V> extends Map<K, V> {
    Comparator<? super K> comparator();

    K firstKey();

    K lastKey();
}
