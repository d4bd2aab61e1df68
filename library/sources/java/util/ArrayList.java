package java.util;

/**
 * A list over an array that grows. Not for several threads at once. Left out: `clone`, what takes a function.
 */
public class ArrayList<E> extends AbstractList<E> implements RandomAccess, java.io.Serializable {
    private Object[] elements;
    private int size;

    public ArrayList() {
        this(10);
    }

    public ArrayList(int capacity) {
        if (capacity < 0) {
            throw new IllegalArgumentException("Illegal Capacity: " + capacity);
        }
        elements = new Object[capacity];
    }

    public ArrayList(Collection<? extends E> others) {
        elements = others.toArray();
        size = elements.length;
    }

    public int size() {
        return size;
    }

    private void check(int index, int end) {
        if (index < 0 || index >= end) {
            throw new IndexOutOfBoundsException("Index: " + index + ", Size: " + size);
        }
    }

    @SuppressWarnings("unchecked")
    public E get(int index) {
        check(index, size);
        return (E) elements[index];
    }

    @SuppressWarnings("unchecked")
    public E set(int index, E element) {
        check(index, size);
        E old = (E) elements[index];
        elements[index] = element;
        return old;
    }

    public boolean add(E element) {
        modCount++;
        ensureCapacity(size + 1);
        elements[size++] = element;
        return true;
    }

    public void add(int index, E element) {
        check(index, size + 1);
        modCount++;
        ensureCapacity(size + 1);
        for (int at = size; at > index; at--) {
            elements[at] = elements[at - 1];
        }
        elements[index] = element;
        size++;
    }

    public void ensureCapacity(int capacity) {
        if (capacity > elements.length) {
            Object[] made = new Object[capacity + (capacity >> 1) + 1];
            for (int at = 0; at < size; at++) {
                made[at] = elements[at];
            }
            elements = made;
        }
    }

    @SuppressWarnings("unchecked")
    public E remove(int index) {
        check(index, size);
        modCount++;
        E old = (E) elements[index];
        size--;
        for (int at = index; at < size; at++) {
            elements[at] = elements[at + 1];
        }
        elements[size] = null;
        return old;
    }

    public void clear() {
        modCount++;
        for (int at = 0; at < size; at++) {
            elements[at] = null;
        }
        size = 0;
    }

    public void trimToSize() {
        modCount++;
        elements = toArray();
    }
}
