package java.util.concurrent;

import java.util.AbstractQueue;
import java.util.Collection;
import java.util.Iterator;
import java.util.concurrent.locks.Waiter;
import java.util.concurrent.locks.WaiterQueue;

/**
 * A queue without room: each `put` waits for a `take`, and each `take` for a `put`.
 *
 * Those that wait are met first in, first out, fair or not. Each is woken alone. Left out: times.
 */
public class SynchronousQueue<E> extends AbstractQueue<E> implements BlockingQueue<E>, java.io.Serializable {
    static final class Transfer extends Waiter {
        Object element;

        Transfer(Object element) {
            super(Thread.currentThread());
            this.element = element;
        }
    }

    private final WaiterQueue putters = new WaiterQueue();
    private final WaiterQueue takers = new WaiterQueue();

    public SynchronousQueue() {
    }

    public SynchronousQueue(boolean isFair) {
    }

    private boolean isTaken(Object element) {
        Transfer taker = (Transfer) takers.poll();
        if (taker == null) {
            return false;
        }
        taker.element = element;
        taker.wake();
        return true;
    }

    private static void check(Object element) {
        if (element == null) {
            throw new NullPointerException();
        }
    }

    /** Null where a taker got it, else who waits for one now. */
    private synchronized Transfer takenOrWaits(E element) {
        if (isTaken(element)) {
            return null;
        }
        Transfer putter = new Transfer(element);
        putters.add(putter);
        return putter;
    }

    private synchronized Transfer givenOrWaits() {
        Transfer putter = (Transfer) putters.poll();
        if (putter != null) {
            putter.wake();
            return putter;
        }
        Transfer taker = new Transfer(null);
        takers.add(taker);
        return taker;
    }

    private synchronized boolean leaves(WaiterQueue queue, Transfer transfer) {
        return queue.remove(transfer);
    }

    private void await(WaiterQueue queue, Transfer transfer) throws InterruptedException {
        try {
            transfer.await();
        } catch (InterruptedException interrupted) {
            if (leaves(queue, transfer)) {
                throw interrupted;
            }
            Thread.currentThread().interrupt();
        }
    }

    public void put(E element) throws InterruptedException {
        check(element);
        if (Thread.interrupted()) {
            throw new InterruptedException();
        }
        Transfer putter = takenOrWaits(element);
        if (putter != null) {
            await(putters, putter);
        }
    }

    @SuppressWarnings("unchecked")
    public E take() throws InterruptedException {
        if (Thread.interrupted()) {
            throw new InterruptedException();
        }
        Transfer transfer = givenOrWaits();
        if (transfer.thread == Thread.currentThread()) {
            await(takers, transfer);
        }
        return (E) transfer.element;
    }

    public boolean offer(E element) {
        check(element);
        synchronized (this) {
            return isTaken(element);
        }
    }

    @SuppressWarnings("unchecked")
    public synchronized E poll() {
        Transfer putter = (Transfer) putters.poll();
        if (putter == null) {
            return null;
        }
        putter.wake();
        return (E) putter.element;
    }

    public E peek() {
        return null;
    }

    public int size() {
        return 0;
    }

    public int remainingCapacity() {
        return 0;
    }

    public int drainTo(Collection<? super E> into) {
        return drainTo(into, 0x7fffffff);
    }

    public int drainTo(Collection<? super E> into, int most) {
        int count = 0;
        while (count < most) {
            E element = poll();
            if (element == null) {
                break;
            }
            into.add(element);
            count++;
        }
        return count;
    }

    public Iterator<E> iterator() {
        return new MonitorQueue.Walk<E>(this, new Object[0]);
    }
}
