package java.util.concurrent;

import java.util.Collection;
import java.util.Queue;

/** A queue whose `take` waits for an element, and whose `put` waits for room. Left out: times. */
public interface BlockingQueue<E> extends Queue<E> {
    void put(E element) throws InterruptedException;

    E take() throws InterruptedException;

    int remainingCapacity();

    int drainTo(Collection<? super E> into);

    int drainTo(Collection<? super E> into, int most);
}
