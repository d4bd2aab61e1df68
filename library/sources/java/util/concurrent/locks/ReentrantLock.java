package java.util.concurrent.locks;

/**
 * A lock that its owner may take again.
 *
 * Whoever comes when it is free takes it, also before threads that have waited longer; one that waits is woken
 * when it becomes free, which one the schedule says. A fair one is handed on to the thread that has waited
 * longest, and only `tryLock` passes those that wait. Its conditions wake the thread that has waited longest,
 * which then takes the lock as others do. Left out: times, `toString`.
 */
public class ReentrantLock implements Lock, java.io.Serializable {
    private final WaiterQueue queue;
    private volatile Thread owner;
    private int holds;
    private int waiting;

    public ReentrantLock() {
        queue = null;
    }

    public ReentrantLock(boolean isFair) {
        queue = isFair ? new WaiterQueue() : null;
    }

    public void lock() {
        take(1);
    }

    /** Takes the lock so often, without heeding interrupts. */
    final void take(int count) {
        Thread current = Thread.currentThread();
        if (queue == null) {
            takeFree(current, count);
        } else {
            Waiter waiter = tookOrWaits(current, count);
            if (waiter != null) {
                waiter.awaitUninterruptibly();
                holds = count;
            }
        }
    }

    private synchronized void takeFree(Thread current, int count) {
        boolean wasInterrupted = false;
        while (owner != null && owner != current) {
            waiting++;
            try {
                wait();
            } catch (InterruptedException interrupted) {
                wasInterrupted = true;
            }
            waiting--;
        }
        own(current, count);
        if (wasInterrupted) {
            current.interrupt();
        }
    }

    /** Null where a fair lock was taken, else who waits for it now. */
    private synchronized Waiter tookOrWaits(Thread current, int count) {
        if (owner == current || owner == null && queue.isEmpty()) {
            own(current, count);
            return null;
        }
        Waiter waiter = new Waiter(current);
        queue.add(waiter);
        return waiter;
    }

    private void own(Thread current, int count) {
        owner = current;
        holds += count;
    }

    public void lockInterruptibly() throws InterruptedException {
        if (Thread.interrupted()) {
            throw new InterruptedException();
        }
        Thread current = Thread.currentThread();
        if (queue == null) {
            takeFreeInterruptibly(current);
            return;
        }
        Waiter waiter = tookOrWaits(current, 1);
        if (waiter == null) {
            return;
        }
        try {
            waiter.await();
        } catch (InterruptedException interrupted) {
            if (leaves(waiter)) {
                throw interrupted;
            }
            current.interrupt();
        }
        holds = 1;
    }

    private synchronized boolean leaves(Waiter waiter) {
        return queue.remove(waiter);
    }

    private synchronized void takeFreeInterruptibly(Thread current) throws InterruptedException {
        while (owner != null && owner != current) {
            waiting++;
            try {
                wait();
            } finally {
                waiting--;
            }
        }
        own(current, 1);
    }

    public synchronized boolean tryLock() {
        Thread current = Thread.currentThread();
        if (owner != null && owner != current) {
            return false;
        }
        own(current, 1);
        return true;
    }

    public void unlock() {
        give(1);
    }

    /** Gives the lock back so often. */
    private synchronized void give(int count) {
        if (owner != Thread.currentThread()) {
            throw new IllegalMonitorStateException();
        }
        holds -= count;
        if (holds > 0) {
            return;
        }
        Waiter next = queue == null ? null : queue.poll();
        owner = next == null ? null : next.thread;
        if (next != null) {
            next.wake();
        } else if (queue == null && waiting > 0) {
            notify();
        }
    }

    /** Gives the lock back as often as its owner has taken it, and tells how often that was. */
    final int giveAll() {
        int count = holds;
        give(count);
        return count;
    }

    public Condition newCondition() {
        return new LockCondition(this);
    }

    public boolean isHeldByCurrentThread() {
        return owner == Thread.currentThread();
    }

    public boolean isLocked() {
        return owner != null;
    }

    public final boolean isFair() {
        return queue != null;
    }

    public int getHoldCount() {
        return isHeldByCurrentThread() ? holds : 0;
    }

    protected Thread getOwner() {
        return owner;
    }

    public final synchronized boolean hasQueuedThreads() {
        return queue == null ? waiting > 0 : !queue.isEmpty();
    }

    public final synchronized int getQueueLength() {
        return queue == null ? waiting : queue.size();
    }

    public boolean hasWaiters(Condition condition) {
        return getWaitQueueLength(condition) > 0;
    }

    public int getWaitQueueLength(Condition condition) {
        if (!(condition instanceof LockCondition) || ((LockCondition) condition).lock != this) {
            throw new IllegalArgumentException();
        }
        return ((LockCondition) condition).size();
    }
}
