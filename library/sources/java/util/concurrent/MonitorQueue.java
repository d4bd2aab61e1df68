package java.util.concurrent;

import java.util.AbstractQueue;
import java.util.Collection;
import java.util.Iterator;
import java.util.NoSuchElementException;
import java.util.Objects;

/**
 * What the blocking queues share, of this library's own: one monitor, on which takers and putters wait.
 *
 * All that wait are woken where an element comes or goes, and which of them goes first the schedule says; elements come
 * out in the order of the queue. Iterators go over what was there when they were made.
 */
abstract class MonitorQueue<E> extends AbstractQueue<E> implements BlockingQueue<E>, java.io.Serializable {
    private final int capacity;
    private int size;

    MonitorQueue(int capacity) {
        if (capacity <= 0) {
            throw new IllegalArgumentException();
        }
        this.capacity = capacity;
    }

    /** Puts an element in, for which there is room. */
    abstract void enter(E element);

    /** Takes out the next element, which is there. */
    abstract E leave();

    /** The element, which is there, that so many would leave before. */
    abstract E at(int index);

    /** Takes out the element, which is there, that so many would leave before. */
    abstract void removeAt(int index);

    private void entered(E element) {
        enter(element);
        size++;
        notifyAll();
    }

    private E left() {
        E element = leave();
        size--;
        notifyAll();
        return element;
    }

    private static void check(Object element) {
        if (element == null) {
            throw new NullPointerException();
        }
    }

    public void put(E element) throws InterruptedException {
        check(element);
        synchronized (this) {
            if (Thread.interrupted()) {
                throw new InterruptedException();
            }
            while (size == capacity) {
                wait();
            }
            entered(element);
        }
    }

    public synchronized E take() throws InterruptedException {
        if (Thread.interrupted()) {
            throw new InterruptedException();
        }
        while (size == 0) {
            wait();
        }
        return left();
    }

    public boolean offer(E element) {
        check(element);
        synchronized (this) {
            if (size == capacity) {
                return false;
            }
            entered(element);
            return true;
        }
    }

    public synchronized E poll() {
        return size == 0 ? null : left();
    }

    public synchronized E peek() {
        return size == 0 ? null : at(0);
    }

    public synchronized int size() {
        return size;
    }

    public synchronized int remainingCapacity() {
        return capacity - size;
    }

    private int indexOf(Object element) {
        for (int index = 0; index < size; index++) {
            if (Objects.equals(element, at(index))) {
                return index;
            }
        }
        return -1;
    }

    public synchronized boolean contains(Object element) {
        return indexOf(element) >= 0;
    }

    public synchronized boolean remove(Object element) {
        int index = indexOf(element);
        if (index < 0) {
            return false;
        }
        removeAt(index);
        size--;
        notifyAll();
        return true;
    }

    public synchronized Object[] toArray() {
        Object[] made = new Object[size];
        for (int index = 0; index < size; index++) {
            made[index] = at(index);
        }
        return made;
    }

    public int drainTo(Collection<? super E> into) {
        return drainTo(into, 0x7fffffff);
    }

    public synchronized int drainTo(Collection<? super E> into, int most) {
        if (into == this) {
            throw new IllegalArgumentException();
        }
        int count = 0;
        while (count < most && size > 0) {
            into.add(left());
            count++;
        }
        return count;
    }

    public Iterator<E> iterator() {
        return new Walk<E>(this, toArray());
    }

    static final class Walk<E> implements Iterator<E> {
        private final Collection<E> queue;
        private final Object[] elements;
        private int at;

        Walk(Collection<E> queue, Object[] elements) {
            this.queue = queue;
            this.elements = elements;
        }

        public boolean hasNext() {
            return at < elements.length;
        }

        @SuppressWarnings("unchecked")
        public E next() {
            if (at == elements.length) {
                throw new NoSuchElementException();
            }
            return (E) elements[at++];
        }

        public void remove() {
            if (at == 0) {
                throw new IllegalStateException();
            }
            queue.remove(elements[at - 1]);
        }
    }
}
