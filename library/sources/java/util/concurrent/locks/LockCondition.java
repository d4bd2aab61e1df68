package java.util.concurrent.locks;

/**
 * A condition of a ReentrantLock, of this library's own.
 *
 * Those that wait stand in a queue that the lock guards; `signal` wakes the first one, and nobody else. One that is
 * interrupted while it waits leaves the queue when it owns the lock again; where it was signalled meanwhile it returns
 * normally, with its interrupt status set.
 */
final class LockCondition implements Condition, java.io.Serializable {
    final ReentrantLock lock;
    private final WaiterQueue queue = new WaiterQueue();

    LockCondition(ReentrantLock lock) {
        this.lock = lock;
    }

    private void check() {
        if (!lock.isHeldByCurrentThread()) {
            throw new IllegalMonitorStateException();
        }
    }

    public void await() throws InterruptedException {
        if (Thread.interrupted()) {
            throw new InterruptedException();
        }
        check();
        Waiter waiter = new Waiter(Thread.currentThread());
        queue.add(waiter);
        int count = lock.giveAll();
        InterruptedException cause = null;
        try {
            waiter.await();
        } catch (InterruptedException interrupted) {
            cause = interrupted;
        }
        lock.take(count);
        if (cause != null) {
            if (queue.remove(waiter)) {
                throw cause;
            }
            Thread.currentThread().interrupt();
        }
    }

    public void awaitUninterruptibly() {
        check();
        Waiter waiter = new Waiter(Thread.currentThread());
        queue.add(waiter);
        int count = lock.giveAll();
        waiter.awaitUninterruptibly();
        lock.take(count);
    }

    public void signal() {
        check();
        Waiter waiter = queue.poll();
        if (waiter != null) {
            waiter.wake();
        }
    }

    public void signalAll() {
        check();
        for (Waiter waiter = queue.poll(); waiter != null; waiter = queue.poll()) {
            waiter.wake();
        }
    }

    int size() {
        check();
        return queue.size();
    }
}
