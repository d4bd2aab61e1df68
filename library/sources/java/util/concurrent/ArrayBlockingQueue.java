package java.util.concurrent;

import java.util.Collection;

/**
 * A blocking queue with room for so many elements, first in, first out.
 *
 * It waits and wakes as a MonitorQueue does; asked to be fair it does the same. Left out: times.
 */
public class ArrayBlockingQueue<E> extends MonitorQueue<E> {
    private final Object[] ring;
    private int first;
    private int count;

    public ArrayBlockingQueue(int capacity) {
        super(capacity);
        ring = new Object[capacity];
    }

    public ArrayBlockingQueue(int capacity, boolean isFair) {
        this(capacity);
    }

    public ArrayBlockingQueue(int capacity, boolean isFair, Collection<? extends E> others) {
        this(capacity);
        if (others.size() > capacity) {
            throw new IllegalArgumentException();
        }
        addAll(others);
    }

    private int place(int index) {
        int place = first + index;
        return place >= ring.length ? place - ring.length : place;
    }

    void enter(E element) {
        ring[place(count)] = element;
        count++;
    }

    E leave() {
        E element = at(0);
        ring[first] = null;
        first = place(1);
        count--;
        return element;
    }

    @SuppressWarnings("unchecked")
    E at(int index) {
        return (E) ring[place(index)];
    }

    void removeAt(int index) {
        for (int at = index; at < count - 1; at++) {
            ring[place(at)] = ring[place(at + 1)];
        }
        count--;
        ring[place(count)] = null;
    }
}
