package java.util.concurrent;

import java.util.AbstractQueue;
import java.util.Collection;
import java.util.Iterator;
import java.util.LinkedList;

/**
 * A queue for several threads, first in, first out, that never waits: each operation is done under its lock. An
 * `equals` that `contains` or `remove` calls isn't.
 *
 * Iterators go over what was there when they were made. Left out: streams.
 */
public class ConcurrentLinkedQueue<E> extends AbstractQueue<E> implements java.io.Serializable {
    private final LinkedList<E> list = new LinkedList<E>();

    public ConcurrentLinkedQueue() {
    }

    public ConcurrentLinkedQueue(Collection<? extends E> others) {
        addAll(others);
    }

    public boolean offer(E element) {
        if (element == null) {
            throw new NullPointerException();
        }
        synchronized (this) {
            return list.add(element);
        }
    }

    public synchronized E poll() {
        return list.poll();
    }

    public synchronized E peek() {
        return list.peek();
    }

    public synchronized boolean isEmpty() {
        return list.isEmpty();
    }

    public synchronized int size() {
        return list.size();
    }

    /** The first equal one that is still there when it is to be taken out. */
    public boolean remove(Object element) {
        Object[] all = toArray();
        for (int at = 0; at < all.length; at++) {
            if (element != null && element.equals(all[at]) && unlinked(all[at])) {
                return true;
            }
        }
        return false;
    }

    /** Takes out the first that is the given object; tells whether there was one. */
    private synchronized boolean unlinked(Object element) {
        for (Iterator<E> each = list.iterator(); each.hasNext();) {
            if (each.next() == element) {
                each.remove();
                return true;
            }
        }
        return false;
    }

    public synchronized Object[] toArray() {
        return list.toArray();
    }

    public Iterator<E> iterator() {
        return new MonitorQueue.Walk<E>(this, toArray());
    }
}
