package java.util;

/**
 * A queue that gives the least element first, by a heap; elements that are equal come in no order that is promised.
 *
 * Not for several threads at once.
 */
public class PriorityQueue<E> extends AbstractQueue<E> implements java.io.Serializable {
    private final Comparator<? super E> order;
    private Object[] heap;
    private int size;

    public PriorityQueue() {
        this(11, null);
    }

    public PriorityQueue(int capacity) {
        this(capacity, null);
    }

    public PriorityQueue(Comparator<? super E> order) {
        this(11, order);
    }

    public PriorityQueue(int capacity, Comparator<? super E> order) {
        if (capacity < 1) {
            throw new IllegalArgumentException();
        }
        this.order = order;
        heap = new Object[capacity];
    }

    public PriorityQueue(PriorityQueue<? extends E> others) {
        this((Collection<? extends E>) others);
    }

    public PriorityQueue(SortedSet<? extends E> others) {
        this((Collection<? extends E>) others);
    }

    /** In the order of the others where they have one. */
    @SuppressWarnings("unchecked")
    public PriorityQueue(Collection<? extends E> others) {
        if (others instanceof SortedSet) {
            order = ((SortedSet<E>) others).comparator();
        } else {
            order = others instanceof PriorityQueue ? ((PriorityQueue<E>) others).comparator() : null;
        }
        heap = others.toArray();
        size = heap.length;
        for (int at = 0; at < size; at++) {
            if (heap[at] == null) {
                throw new NullPointerException();
            }
        }
        for (int at = (size >>> 1) - 1; at >= 0; at--) {
            down(at, heap[at]);
        }
    }

    public Comparator<? super E> comparator() {
        return order;
    }

    @SuppressWarnings("unchecked")
    private int compare(Object a, Object b) {
        return order != null ? order.compare((E) a, (E) b) : ((Comparable<Object>) a).compareTo(b);
    }

    public int size() {
        return size;
    }

    public boolean offer(E element) {
        if (element == null) {
            throw new NullPointerException();
        }
        if (size == heap.length) {
            Object[] made = new Object[2 * size + 2];
            for (int at = 0; at < size; at++) {
                made[at] = heap[at];
            }
            heap = made;
        }
        size++;
        up(size - 1, element);
        return true;
    }

    private void up(int from, Object element) {
        int at = from;
        while (at > 0) {
            int above = at - 1 >> 1;
            if (compare(element, heap[above]) >= 0) {
                break;
            }
            heap[at] = heap[above];
            at = above;
        }
        heap[at] = element;
    }

    private int down(int from, Object element) {
        int at = from;
        while (2 * at + 1 < size) {
            int below = 2 * at + 1;
            if (below + 1 < size && compare(heap[below], heap[below + 1]) > 0) {
                below++;
            }
            if (compare(element, heap[below]) <= 0) {
                break;
            }
            heap[at] = heap[below];
            at = below;
        }
        heap[at] = element;
        return at;
    }

    @SuppressWarnings("unchecked")
    public E peek() {
        return size == 0 ? null : (E) heap[0];
    }

    public E poll() {
        if (size == 0) {
            return null;
        }
        E least = peek();
        removeAt(0);
        return least;
    }

    private void removeAt(int index) {
        size--;
        Object last = heap[size];
        heap[size] = null;
        if (index < size && down(index, last) == index) {
            up(index, last);
        }
    }

    private int indexOf(Object element) {
        for (int at = 0; at < size; at++) {
            if (Objects.equals(element, heap[at])) {
                return at;
            }
        }
        return -1;
    }

    public boolean contains(Object element) {
        return indexOf(element) >= 0;
    }

    public boolean remove(Object element) {
        int at = indexOf(element);
        if (at < 0) {
            return false;
        }
        removeAt(at);
        return true;
    }

    /** In the order of the heap, over what was there when it was made. */
    @SuppressWarnings("unchecked")
    public Iterator<E> iterator() {
        Object[] made = new Object[size];
        for (int at = 0; at < size; at++) {
            made[at] = heap[at];
        }
        return new Walk<E>(this, made);
    }

    static final class Walk<E> implements Iterator<E> {
        private final PriorityQueue<E> queue;
        private final Object[] elements;
        private int at;

        Walk(PriorityQueue<E> queue, Object[] elements) {
            this.queue = queue;
            this.elements = elements;
        }

        public boolean hasNext() {
            return at < elements.length;
        }

        @SuppressWarnings("unchecked")
        public E next() {
            if (at == elements.length) {
                throw new NoSuchElementException();
            }
            return (E) elements[at++];
        }

        public void remove() {
            if (at == 0) {
                throw new IllegalStateException();
            }
            queue.remove(elements[at - 1]);
        }
    }
}
