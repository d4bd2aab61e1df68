package java.util;

/**
 * A queue with two ends over a ring of elements, none of them null. Not for several threads at once. Left out:
 * `clone`.
 */
public class ArrayDeque<E> extends AbstractCollection<E> implements Deque<E>, java.io.Serializable {
    private Object[] ring;
    private int first;
    private int size;

    public ArrayDeque() {
        this(16);
    }

    public ArrayDeque(int capacity) {
        ring = new Object[capacity < 1 ? 1 : capacity];
    }

    public ArrayDeque(Collection<? extends E> others) {
        this(others.size());
        addAll(others);
    }

    public int size() {
        return size;
    }

    /** The place in the ring of what stands at an index, the first one's being 0. */
    private int place(int index) {
        int place = first + index;
        return place >= ring.length ? place - ring.length : place;
    }

    @SuppressWarnings("unchecked")
    E at(int index) {
        return (E) ring[place(index)];
    }

    private void prepare(E element) {
        if (element == null) {
            throw new NullPointerException();
        }
        if (size == ring.length) {
            Object[] made = new Object[2 * size];
            for (int index = 0; index < size; index++) {
                made[index] = at(index);
            }
            ring = made;
            first = 0;
        }
    }

    public void addFirst(E element) {
        prepare(element);
        first = first == 0 ? ring.length - 1 : first - 1;
        ring[first] = element;
        size++;
    }

    public void addLast(E element) {
        prepare(element);
        ring[place(size)] = element;
        size++;
    }

    public E pollFirst() {
        if (size == 0) {
            return null;
        }
        E element = at(0);
        ring[first] = null;
        first = place(1);
        size--;
        return element;
    }

    public E pollLast() {
        if (size == 0) {
            return null;
        }
        size--;
        E element = at(size);
        ring[place(size)] = null;
        return element;
    }

    void removeAt(int index) {
        for (int at = index; at < size - 1; at++) {
            ring[place(at)] = ring[place(at + 1)];
        }
        size--;
        ring[place(size)] = null;
    }

    private E present(E element) {
        if (element == null) {
            throw new NoSuchElementException();
        }
        return element;
    }

    public E peekFirst() {
        return size == 0 ? null : at(0);
    }

    public E peekLast() {
        return size == 0 ? null : at(size - 1);
    }

    public boolean add(E element) {
        addLast(element);
        return true;
    }

    public boolean offer(E element) {
        addLast(element);
        return true;
    }

    public boolean offerFirst(E element) {
        addFirst(element);
        return true;
    }

    public boolean offerLast(E element) {
        addLast(element);
        return true;
    }

    public void push(E element) {
        addFirst(element);
    }

    public E removeFirst() {
        return present(pollFirst());
    }

    public E removeLast() {
        return present(pollLast());
    }

    public E remove() {
        return removeFirst();
    }

    public E pop() {
        return removeFirst();
    }

    public E poll() {
        return pollFirst();
    }

    public E getFirst() {
        return present(peekFirst());
    }

    public E getLast() {
        return present(peekLast());
    }

    public E element() {
        return getFirst();
    }

    public E peek() {
        return peekFirst();
    }

    public boolean removeFirstOccurrence(Object element) {
        for (int index = 0; index < size; index++) {
            if (Objects.equals(element, at(index))) {
                removeAt(index);
                return true;
            }
        }
        return false;
    }

    public boolean removeLastOccurrence(Object element) {
        for (int index = size - 1; index >= 0; index--) {
            if (Objects.equals(element, at(index))) {
                removeAt(index);
                return true;
            }
        }
        return false;
    }

    public boolean remove(Object element) {
        return removeFirstOccurrence(element);
    }

    public void clear() {
        while (pollFirst() != null) {
        }
    }

    public Iterator<E> iterator() {
        return new Walk<E>(this, 1);
    }

    public Iterator<E> descendingIterator() {
        return new Walk<E>(this, -1);
    }

    static final class Walk<E> implements Iterator<E> {
        private final ArrayDeque<E> deque;
        private final int step;
        private int next;
        private boolean mayRemove;

        Walk(ArrayDeque<E> deque, int step) {
            this.deque = deque;
            this.step = step;
            next = step > 0 ? 0 : deque.size() - 1;
        }

        public boolean hasNext() {
            return next >= 0 && next < deque.size();
        }

        public E next() {
            if (!hasNext()) {
                throw new NoSuchElementException();
            }
            E element = deque.at(next);
            next += step;
            mayRemove = true;
            return element;
        }

        public void remove() {
            if (!mayRemove) {
                throw new IllegalStateException();
            }
            deque.removeAt(next - step);
            if (step > 0) {
                next--;
            }
            mayRemove = false;
        }
    }
}
