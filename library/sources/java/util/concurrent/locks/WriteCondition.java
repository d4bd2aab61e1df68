package java.util.concurrent.locks;

/** A condition of a write lock, of this library's own; it wakes as a LockCondition does. */
final class WriteCondition implements Condition, java.io.Serializable {
    private final ReentrantReadWriteLock lock;
    private final WaiterQueue queue = new WaiterQueue();

    WriteCondition(ReentrantReadWriteLock lock) {
        this.lock = lock;
    }

    private int check() {
        if (!lock.isWriteLockedByCurrentThread()) {
            throw new IllegalMonitorStateException();
        }
        return lock.getWriteHoldCount();
    }

    public void await() throws InterruptedException {
        if (Thread.interrupted()) {
            throw new InterruptedException();
        }
        int count = check();
        Waiter waiter = new Waiter(Thread.currentThread());
        queue.add(waiter);
        lock.giveWrite(count);
        InterruptedException cause = null;
        try {
            waiter.await();
        } catch (InterruptedException interrupted) {
            cause = interrupted;
        }
        lock.take(true, count);
        if (cause != null) {
            if (queue.remove(waiter)) {
                throw cause;
            }
            Thread.currentThread().interrupt();
        }
    }

    public void awaitUninterruptibly() {
        int count = check();
        Waiter waiter = new Waiter(Thread.currentThread());
        queue.add(waiter);
        lock.giveWrite(count);
        waiter.awaitUninterruptibly();
        lock.take(true, count);
    }

    public void signal() {
        check();
        Waiter waiter = queue.poll();
        if (waiter != null) {
            waiter.wake();
        }
    }

    public void signalAll() {
        check();
        for (Waiter waiter = queue.poll(); waiter != null; waiter = queue.poll()) {
            waiter.wake();
        }
    }
}
