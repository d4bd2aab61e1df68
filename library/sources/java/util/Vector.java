package java.util;

/** A list over an array, each of whose operations is done under its lock; not its iterators. Left out: `clone`. */
public class Vector<E> extends AbstractList<E> implements RandomAccess, java.io.Serializable {
    private final ArrayList<E> list;

    public Vector() {
        this(10);
    }

    public Vector(int capacity) {
        list = new ArrayList<E>(capacity);
    }

    public Vector(Collection<? extends E> others) {
        list = new ArrayList<E>(others);
    }

    public synchronized int size() {
        return list.size();
    }

    public synchronized boolean isEmpty() {
        return list.isEmpty();
    }

    public synchronized E get(int index) {
        checkBound(index);
        return list.get(index);
    }

    public synchronized E elementAt(int index) {
        checkAt(index, ">=", list.size());
        return list.get(index);
    }

    private void checkBound(int index) {
        if (index < 0 || index >= list.size()) {
            throw new ArrayIndexOutOfBoundsException(index);
        }
    }

    /** Throws where an index is less than 0, or is, as the sign says, not below an end. */
    private static void checkAt(int index, String sign, int end) {
        if (index < 0 || index >= end) {
            int size = sign.equals(">") ? end - 1 : end;
            throw new ArrayIndexOutOfBoundsException(index < 0 ? "" + index : index + " " + sign + " " + size);
        }
    }

    private E end(int index) {
        if (list.isEmpty()) {
            throw new NoSuchElementException();
        }
        return list.get(index);
    }

    public synchronized E firstElement() {
        return end(0);
    }

    public synchronized E lastElement() {
        return end(list.size() - 1);
    }

    public synchronized E set(int index, E element) {
        checkBound(index);
        return list.set(index, element);
    }

    public synchronized boolean add(E element) {
        modCount++;
        return list.add(element);
    }

    public synchronized void addElement(E element) {
        modCount++;
        list.add(element);
    }

    public synchronized void setElementAt(E element, int index) {
        checkAt(index, ">=", list.size());
        list.set(index, element);
    }

    public synchronized void add(int index, E element) {
        checkAt(index, ">", list.size() + 1);
        modCount++;
        list.add(index, element);
    }

    public void insertElementAt(E element, int index) {
        add(index, element);
    }

    public synchronized E remove(int index) {
        checkBound(index);
        modCount++;
        return list.remove(index);
    }

    public synchronized void removeElementAt(int index) {
        checkAt(index, ">=", list.size());
        modCount++;
        list.remove(index);
    }

    public synchronized boolean remove(Object element) {
        modCount++;
        return list.remove(element);
    }

    public boolean removeElement(Object element) {
        return remove(element);
    }

    public synchronized void clear() {
        modCount++;
        list.clear();
    }

    public void removeAllElements() {
        clear();
    }

    public synchronized int indexOf(Object element) {
        return list.indexOf(element);
    }

    public synchronized int lastIndexOf(Object element) {
        return list.lastIndexOf(element);
    }

    public synchronized boolean contains(Object element) {
        return list.contains(element);
    }

    public synchronized boolean addAll(Collection<? extends E> others) {
        return super.addAll(others);
    }

    public synchronized Object[] toArray() {
        return list.toArray();
    }

    public synchronized <T> T[] toArray(T[] array) {
        return list.toArray(array);
    }

    public synchronized boolean equals(Object other) {
        return super.equals(other);
    }

    public synchronized int hashCode() {
        return super.hashCode();
    }

    public synchronized String toString() {
        return super.toString();
    }

    public Enumeration<E> elements() {
        return new Elements<E>(iterator());
    }

    static final class Elements<E> implements Enumeration<E> {
        private final Iterator<E> each;

        Elements(Iterator<E> each) {
            this.each = each;
        }

        public boolean hasMoreElements() {
            return each.hasNext();
        }

        public E nextElement() {
            return each.next();
        }
    }
}
