package java.util.concurrent;

import java.util.AbstractList;
import java.util.Collection;
import java.util.Iterator;
import java.util.List;
import java.util.NoSuchElementException;
import java.util.Objects;
import java.util.RandomAccess;

/**
 * A list for several threads over an array that is never changed: whoever changes the list puts a new array in its
 * place, under its lock.
 *
 * Reading is one read of a volatile field. Iterators go over the array that was there when they were made, and change
 * nothing. Left out: what takes a function.
 */
public class CopyOnWriteArrayList<E> extends AbstractList<E> implements List<E>, RandomAccess, java.io.Serializable {
    private volatile Object[] elements = new Object[0];

    public CopyOnWriteArrayList() {
    }

    public CopyOnWriteArrayList(Collection<? extends E> others) {
        elements = others.toArray();
    }

    public int size() {
        return elements.length;
    }

    @SuppressWarnings("unchecked")
    public E get(int index) {
        return (E) elements[index];
    }

    /** A copy with room for so many more at the index, or with so many fewer. */
    private static Object[] copy(Object[] old, int index, int more) {
        Object[] made = new Object[old.length + more];
        for (int at = 0; at < index; at++) {
            made[at] = old[at];
        }
        for (int at = more < 0 ? index - more : index; at < old.length; at++) {
            made[at + more] = old[at];
        }
        return made;
    }

    private static void check(int index, int end) {
        if (index < 0 || index >= end) {
            throw new IndexOutOfBoundsException("Index: " + index + ", Size: " + (end - 1));
        }
    }

    @SuppressWarnings("unchecked")
    public synchronized E set(int index, E element) {
        Object[] made = copy(elements, elements.length, 0);
        E old = (E) made[index];
        made[index] = element;
        elements = made;
        return old;
    }

    public synchronized boolean add(E element) {
        add(elements.length, element);
        return true;
    }

    public synchronized void add(int index, E element) {
        Object[] old = elements;
        check(index, old.length + 1);
        Object[] made = copy(old, index, 1);
        made[index] = element;
        elements = made;
    }

    /** An `equals` is called under the lock only where the list was changed meanwhile. */
    public boolean addIfAbsent(E element) {
        Object[] seen = elements;
        return indexIn(seen, element) < 0 && addedTo(seen, element);
    }

    private synchronized boolean addedTo(Object[] seen, E element) {
        return (elements == seen || indexOf(element) < 0) && add(element);
    }

    @SuppressWarnings("unchecked")
    public synchronized E remove(int index) {
        Object[] old = elements;
        E element = (E) old[index];
        elements = copy(old, index, -1);
        return element;
    }

    /** An `equals` is called under the lock only where the list was changed meanwhile. */
    public boolean remove(Object element) {
        Object[] seen = elements;
        int index = indexIn(seen, element);
        return index >= 0 && removedFrom(seen, index, element);
    }

    private synchronized boolean removedFrom(Object[] seen, int index, Object element) {
        int found = elements == seen ? index : indexOf(element);
        if (found < 0) {
            return false;
        }
        remove(found);
        return true;
    }

    private static int indexIn(Object[] all, Object element) {
        for (int at = 0; at < all.length; at++) {
            if (Objects.equals(element, all[at])) {
                return at;
            }
        }
        return -1;
    }

    public int indexOf(Object element) {
        return indexIn(elements, element);
    }

    public int lastIndexOf(Object element) {
        Object[] all = elements;
        for (int at = all.length - 1; at >= 0; at--) {
            if (Objects.equals(element, all[at])) {
                return at;
            }
        }
        return -1;
    }

    public synchronized boolean addAll(Collection<? extends E> others) {
        return super.addAll(others);
    }

    public synchronized boolean addAll(int index, Collection<? extends E> others) {
        return super.addAll(index, others);
    }

    private synchronized boolean keep(Collection<?> others, boolean areKept) {
        boolean isChanged = false;
        for (int at = elements.length - 1; at >= 0; at--) {
            if (others.contains(elements[at]) != areKept) {
                remove(at);
                isChanged = true;
            }
        }
        return isChanged;
    }

    public boolean removeAll(Collection<?> others) {
        return keep(others, false);
    }

    public boolean retainAll(Collection<?> others) {
        return keep(others, true);
    }

    public synchronized void clear() {
        elements = new Object[0];
    }

    public Object[] toArray() {
        Object[] all = elements;
        return copy(all, all.length, 0);
    }

    public Iterator<E> iterator() {
        return new Walk<E>(elements);
    }

    static final class Walk<E> implements Iterator<E> {
        private final Object[] elements;
        private int at;

        Walk(Object[] elements) {
            this.elements = elements;
        }

        public boolean hasNext() {
            return at < elements.length;
        }

        @SuppressWarnings("unchecked")
        public E next() {
            if (at == elements.length) {
                throw new NoSuchElementException();
            }
            return (E) elements[at++];
        }

        public void remove() {
            throw new UnsupportedOperationException();
        }
    }
}
