package java.util;

/** A HashSet that goes through its elements in the order in which they were first added. */
public class LinkedHashSet<E> extends HashSet<E> {
    public LinkedHashSet() {
        super(new LinkedHashMap<E, Object>());
    }

    public LinkedHashSet(int capacity) {
        super(new LinkedHashMap<E, Object>(capacity));
    }

    public LinkedHashSet(Collection<? extends E> others) {
        this();
        addAll(others);
    }
}
