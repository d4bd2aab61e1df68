package java.util.concurrent;

import java.util.concurrent.locks.Waiter;
import java.util.concurrent.locks.WaiterQueue;

/**
 * A number of permits that threads take and give back.
 *
 * Whoever comes when there are enough takes them; those that wait are all woken by a release, and which goes first the
 * schedule says. A fair one hands permits to the thread that has waited longest, and lets none behind it pass; only
 * `tryAcquire` passes those that wait. Left out: times, `toString`.
 */
public class Semaphore implements java.io.Serializable {
    static final class Request extends Waiter {
        final int permits;

        Request(int permits) {
            super(Thread.currentThread());
            this.permits = permits;
        }
    }

    private final WaiterQueue queue;
    private volatile int permits;

    public Semaphore(int permits) {
        this(permits, false);
    }

    public Semaphore(int permits, boolean isFair) {
        this.permits = permits;
        queue = isFair ? new WaiterQueue() : null;
    }

    public void acquire() throws InterruptedException {
        acquire(1);
    }

    public void acquire(int count) throws InterruptedException {
        check(count);
        if (Thread.interrupted()) {
            throw new InterruptedException();
        }
        if (queue == null) {
            take(count);
            return;
        }
        Request request = tookOrWaits(count);
        if (request == null) {
            return;
        }
        try {
            request.await();
        } catch (InterruptedException interrupted) {
            if (leaves(request)) {
                throw interrupted;
            }
            Thread.currentThread().interrupt();
        }
    }

    private synchronized void take(int count) throws InterruptedException {
        while (permits < count) {
            wait();
        }
        permits -= count;
    }

    /** Null where a fair one gave its permits, else who waits for them now. */
    private synchronized Request tookOrWaits(int count) {
        if (queue.isEmpty() && permits >= count) {
            permits -= count;
            return null;
        }
        Request request = new Request(count);
        queue.add(request);
        return request;
    }

    private synchronized boolean leaves(Request request) {
        boolean isThere = queue.remove(request);
        handOn();
        return isThere;
    }

    /** Hands permits to the first ones in the queue, as far as they go. */
    private void handOn() {
        for (Request first = (Request) queue.first(); first != null; first = (Request) queue.first()) {
            if (permits < first.permits) {
                return;
            }
            permits -= first.permits;
            queue.poll();
            first.wake();
        }
    }

    public void acquireUninterruptibly() {
        acquireUninterruptibly(1);
    }

    public void acquireUninterruptibly(int count) {
        check(count);
        if (queue == null) {
            takeUninterruptibly(count);
            return;
        }
        Request request = tookOrWaits(count);
        if (request != null) {
            request.awaitUninterruptibly();
        }
    }

    private synchronized void takeUninterruptibly(int count) {
        boolean wasInterrupted = false;
        while (permits < count) {
            try {
                wait();
            } catch (InterruptedException interrupted) {
                wasInterrupted = true;
            }
        }
        permits -= count;
        if (wasInterrupted) {
            Thread.currentThread().interrupt();
        }
    }

    public boolean tryAcquire() {
        return tryAcquire(1);
    }

    public synchronized boolean tryAcquire(int count) {
        check(count);
        if (permits < count) {
            return false;
        }
        permits -= count;
        return true;
    }

    public void release() {
        release(1);
    }

    public synchronized void release(int count) {
        check(count);
        permits += count;
        if (queue == null) {
            notifyAll();
        } else {
            handOn();
        }
    }

    private static void check(int count) {
        if (count < 0) {
            throw new IllegalArgumentException();
        }
    }

    public int availablePermits() {
        return permits;
    }

    public synchronized int drainPermits() {
        int all = permits;
        permits = 0;
        return all;
    }

    public boolean isFair() {
        return queue != null;
    }
}
