package java.util;

/** The keys of a HashMap. Not for several threads at once. Left out: load factors, `clone`. */
public class HashSet<E> extends AbstractSet<E> implements java.io.Serializable {
    private final HashMap<E, Object> map;

    public HashSet() {
        this(new HashMap<E, Object>());
    }

    public HashSet(int capacity) {
        this(new HashMap<E, Object>(capacity));
    }

    public HashSet(Collection<? extends E> others) {
        this(new HashMap<E, Object>(capacityFor(others.size())));
        addAll(others);
    }

    /** Room for so many elements, of at least 16. */
    private static int capacityFor(int count) {
        int wanted = count + count / 3 + 1;
        return wanted < 16 ? 16 : wanted;
    }

    HashSet(HashMap<E, Object> map) {
        this.map = map;
    }

    public int size() {
        return map.size();
    }

    public boolean contains(Object element) {
        return map.containsKey(element);
    }

    public boolean add(E element) {
        return map.put(element, this) == null;
    }

    public boolean remove(Object element) {
        return map.remove(element) != null;
    }

    public void clear() {
        map.clear();
    }

    public Iterator<E> iterator() {
        return map.keySet().iterator();
    }
}
