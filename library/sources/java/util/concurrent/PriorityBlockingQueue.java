package java.util.concurrent;

import java.util.Collection;
import java.util.Comparator;
import java.util.Iterator;
import java.util.PriorityQueue;

/**
 * A blocking queue with room for all, the least element first, as a PriorityQueue gives them.
 *
 * It waits and wakes as a MonitorQueue does. Left out: times.
 */
public class PriorityBlockingQueue<E> extends MonitorQueue<E> {
    private final PriorityQueue<E> queue;

    public PriorityBlockingQueue() {
        this(11, null);
    }

    public PriorityBlockingQueue(int capacity) {
        this(capacity, null);
    }

    public PriorityBlockingQueue(int capacity, Comparator<? super E> order) {
        super(0x7fffffff);
        queue = new PriorityQueue<E>(capacity, order);
    }

    public PriorityBlockingQueue(Collection<? extends E> others) {
        super(0x7fffffff);
        PriorityQueue<E> heap = new PriorityQueue<E>(others);
        queue = new PriorityQueue<E>(11, heap.comparator());
        addAll(heap);
    }

    public Comparator<? super E> comparator() {
        return queue.comparator();
    }

    public int remainingCapacity() {
        return 0x7fffffff;
    }

    void enter(E element) {
        queue.offer(element);
    }

    E leave() {
        return queue.poll();
    }

    /** In the order of the heap behind the first one. */
    E at(int index) {
        Iterator<E> each = queue.iterator();
        for (int at = 0; at < index; at++) {
            each.next();
        }
        return each.next();
    }

    void removeAt(int index) {
        queue.remove(at(index));
    }
}
