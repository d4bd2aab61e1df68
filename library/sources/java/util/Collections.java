package java.util;

/**
 * Functions of collections. Sorting is stable.
 *
 * A synchronized one takes its own lock for each operation; whoever iterates has to hold it. `shuffle` is that of
 * a given Random. Left out: streams, checked collections, sorted views, `reverseOrder` of a Comparator's methods.
 */
public class Collections {
    private Collections() {
    }

    public static <T extends Comparable<? super T>> void sort(List<T> list) {
        sort(list, null);
    }

    @SuppressWarnings("unchecked")
    public static <T> void sort(List<T> list, Comparator<? super T> order) {
        Object[] sorted = list.toArray();
        Arrays.sort(sorted, (Comparator<Object>) order);
        for (int at = 0; at < sorted.length; at++) {
            list.set(at, (T) sorted[at]);
        }
    }

    public static void reverse(List<?> list) {
        for (int at = 0, end = list.size() - 1; at < end; at++, end--) {
            swap(list, at, end);
        }
    }

    @SuppressWarnings("unchecked")
    public static void swap(List<?> list, int a, int b) {
        List<Object> all = (List<Object>) list;
        all.set(a, all.set(b, all.get(a)));
    }

    public static void shuffle(List<?> list, Random random) {
        for (int size = list.size(); size > 1; size--) {
            swap(list, size - 1, random.nextInt(size));
        }
    }

    @SuppressWarnings("unchecked")
    private static <T> T extreme(Collection<? extends T> all, Comparator<? super T> order, int sign) {
        Iterator<? extends T> each = all.iterator();
        T best = each.next();
        while (each.hasNext()) {
            T next = each.next();
            int compared = order != null ? order.compare(next, best) : ((Comparable<Object>) next).compareTo(best);
            if (sign > 0 ? compared > 0 : compared < 0) {
                best = next;
            }
        }
        return best;
    }

    public static <T extends Object & Comparable<? super T>> T max(Collection<? extends T> all) {
        return Collections.<T>extreme(all, null, 1);
    }

    public static <T> T max(Collection<? extends T> all, Comparator<? super T> order) {
        return Collections.<T>extreme(all, order, 1);
    }

    public static <T extends Object & Comparable<? super T>> T min(Collection<? extends T> all) {
        return Collections.<T>extreme(all, null, -1);
    }

    public static <T> T min(Collection<? extends T> all, Comparator<? super T> order) {
        return Collections.<T>extreme(all, order, -1);
    }

    public static int frequency(Collection<?> all, Object element) {
        int count = 0;
        for (Iterator<?> each = all.iterator(); each.hasNext();) {
            if (Objects.equals(element, each.next())) {
                count++;
            }
        }
        return count;
    }

    @SafeVarargs
    public static <T> boolean addAll(Collection<? super T> all, T... more) {
        boolean isChanged = false;
        for (int at = 0; at < more.length; at++) {
            isChanged |= all.add(more[at]);
        }
        return isChanged;
    }

    public static <T> void fill(List<? super T> list, T value) {
        for (int at = 0; at < list.size(); at++) {
            list.set(at, value);
        }
    }

    public static <T> Comparator<T> reverseOrder() {
        return new Reverse<T>(null);
    }

    public static <T> Comparator<T> reverseOrder(Comparator<T> order) {
        return new Reverse<T>(order);
    }

    public static <T> List<T> emptyList() {
        return new FixedList<T>(new Object[0]);
    }

    public static <T> List<T> singletonList(T element) {
        return new FixedList<T>(new Object[] {element});
    }

    public static <T> List<T> nCopies(int count, T element) {
        if (count < 0) {
            throw new IllegalArgumentException("List length = " + count);
        }
        Object[] all = new Object[count];
        Arrays.fill(all, element);
        return new FixedList<T>(all);
    }

    public static <T> List<T> unmodifiableList(List<? extends T> list) {
        return new FixedList<T>(list.toArray());
    }

    public static <T> Collection<T> synchronizedCollection(Collection<T> all) {
        return new SynchronizedCollection<T>(all);
    }

    public static <T> List<T> synchronizedList(List<T> list) {
        return new SynchronizedList<T>(list);
    }

    public static <T> Set<T> synchronizedSet(Set<T> set) {
        return new SynchronizedSet<T>(set);
    }

    public static <K, V> Map<K, V> synchronizedMap(Map<K, V> map) {
        return new SynchronizedMap<K, V>(map);
    }

    static final class Reverse<T> implements Comparator<T> {
        private final Comparator<T> order;

        Reverse(Comparator<T> order) {
            this.order = order;
        }

        @SuppressWarnings("unchecked")
        public int compare(T a, T b) {
            return order != null ? order.compare(b, a) : ((Comparable<Object>) b).compareTo(a);
        }
    }

    /** A list that can't be changed. That of `unmodifiableList` is a copy. */
    static final class FixedList<E> extends AbstractList<E> implements java.io.Serializable {
        private final Object[] elements;

        FixedList(Object[] elements) {
            this.elements = elements;
        }

        public int size() {
            return elements.length;
        }

        @SuppressWarnings("unchecked")
        public E get(int index) {
            if (index < 0 || index >= elements.length) {
                throw new IndexOutOfBoundsException("Index: " + index + ", Size: " + elements.length);
            }
            return (E) elements[index];
        }
    }

    static class SynchronizedCollection<E> implements Collection<E>, java.io.Serializable {
        private final Collection<E> all;

        SynchronizedCollection(Collection<E> all) {
            this.all = all;
        }

        public synchronized int size() {
            return all.size();
        }

        public synchronized boolean isEmpty() {
            return all.isEmpty();
        }

        public synchronized boolean contains(Object element) {
            return all.contains(element);
        }

        public synchronized Object[] toArray() {
            return all.toArray();
        }

        public synchronized <T> T[] toArray(T[] array) {
            return all.toArray(array);
        }

        public synchronized boolean add(E element) {
            return all.add(element);
        }

        public synchronized boolean remove(Object element) {
            return all.remove(element);
        }

        public synchronized boolean containsAll(Collection<?> others) {
            return all.containsAll(others);
        }

        public synchronized boolean addAll(Collection<? extends E> others) {
            return all.addAll(others);
        }

        public synchronized boolean removeAll(Collection<?> others) {
            return all.removeAll(others);
        }

        public synchronized boolean retainAll(Collection<?> others) {
            return all.retainAll(others);
        }

        public synchronized void clear() {
            all.clear();
        }

        public Iterator<E> iterator() {
            return all.iterator();
        }

        public synchronized String toString() {
            return all.toString();
        }
    }

    static final class SynchronizedSet<E> extends SynchronizedCollection<E> implements Set<E> {
        private final Set<E> set;

        SynchronizedSet(Set<E> set) {
            super(set);
            this.set = set;
        }

        public synchronized boolean equals(Object other) {
            return set.equals(other);
        }

        public synchronized int hashCode() {
            return set.hashCode();
        }
    }

    static final class SynchronizedList<E> extends SynchronizedCollection<E> implements List<E> {
        private final List<E> list;

        SynchronizedList(List<E> list) {
            super(list);
            this.list = list;
        }

        public synchronized E get(int index) {
            return list.get(index);
        }

        public synchronized E set(int index, E element) {
            return list.set(index, element);
        }

        public synchronized void add(int index, E element) {
            list.add(index, element);
        }

        public synchronized E remove(int index) {
            return list.remove(index);
        }

        public synchronized int indexOf(Object element) {
            return list.indexOf(element);
        }

        public synchronized int lastIndexOf(Object element) {
            return list.lastIndexOf(element);
        }

        public synchronized boolean addAll(int index, Collection<? extends E> others) {
            return list.addAll(index, others);
        }

        public ListIterator<E> listIterator() {
            return list.listIterator();
        }

        public ListIterator<E> listIterator(int index) {
            return list.listIterator(index);
        }

        public synchronized List<E> subList(int from, int to) {
            return list.subList(from, to);
        }

        public synchronized boolean equals(Object other) {
            return list.equals(other);
        }

        public synchronized int hashCode() {
            return list.hashCode();
        }
    }

    static final class SynchronizedMap<K, V> implements Map<K, V>, java.io.Serializable {
        private final Map<K, V> map;

        SynchronizedMap(Map<K, V> map) {
            this.map = map;
        }

        public synchronized int size() {
            return map.size();
        }

        public synchronized boolean isEmpty() {
            return map.isEmpty();
        }

        public synchronized boolean containsKey(Object key) {
            return map.containsKey(key);
        }

        public synchronized boolean containsValue(Object value) {
            return map.containsValue(value);
        }

        public synchronized V get(Object key) {
            return map.get(key);
        }

        public synchronized V put(K key, V value) {
            return map.put(key, value);
        }

        public synchronized V remove(Object key) {
            return map.remove(key);
        }

        public synchronized void putAll(Map<? extends K, ? extends V> others) {
            map.putAll(others);
        }

        public synchronized void clear() {
            map.clear();
        }

        public Set<K> keySet() {
            return map.keySet();
        }

        public Collection<V> values() {
            return map.values();
        }

        public Set<Map.Entry<K, V>> entrySet() {
            return map.entrySet();
        }

        public synchronized boolean equals(Object other) {
            return map.equals(other);
        }

        public synchronized int hashCode() {
            return map.hashCode();
        }

        public synchronized String toString() {
            return map.toString();
        }

        public synchronized V getOrDefault(Object key, V other) {
            return map.getOrDefault(key, other);
        }

        public synchronized V putIfAbsent(K key, V value) {
            return map.putIfAbsent(key, value);
        }

        public synchronized boolean remove(Object key, Object value) {
            return map.remove(key, value);
        }

        public synchronized boolean replace(K key, V old, V value) {
            return map.replace(key, old, value);
        }

        public synchronized V replace(K key, V value) {
            return map.replace(key, value);
        }
    }
}
