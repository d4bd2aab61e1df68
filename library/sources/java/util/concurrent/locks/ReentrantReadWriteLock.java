package java.util.concurrent.locks;

/**
 * A lock that many readers own at once, or one writer alone, who may take it again and read, too.
 *
 * Whoever comes takes it where it is free for him: readers pass a writer that waits, and so may starve it. All
 * that wait are woken where it becomes free for one of them. The argument that asks for fairness changes nothing
 * but what `isFair` answers. A reader that wants to write without giving back its read lock waits for ever, as the
 * API says. The write lock has conditions, the read lock has none. Left out: times, counts of the holds of one
 * reader.
 */
public class ReentrantReadWriteLock implements ReadWriteLock, java.io.Serializable {
    private final boolean isFair;
    private final ReadLock readLock = new ReadLock(this);
    private final WriteLock writeLock = new WriteLock(this);
    private volatile Thread writer;
    private int writes;
    private int reads;

    public ReentrantReadWriteLock() {
        this(false);
    }

    public ReentrantReadWriteLock(boolean isFair) {
        this.isFair = isFair;
    }

    public ReadLock readLock() {
        return readLock;
    }

    public WriteLock writeLock() {
        return writeLock;
    }

    public final boolean isFair() {
        return isFair;
    }

    public synchronized int getReadLockCount() {
        return reads;
    }

    public boolean isWriteLocked() {
        return writer != null;
    }

    public boolean isWriteLockedByCurrentThread() {
        return writer == Thread.currentThread();
    }

    public int getWriteHoldCount() {
        return isWriteLockedByCurrentThread() ? writes : 0;
    }

    private boolean mayRead(Thread current) {
        return writer == null || writer == current;
    }

    private boolean mayWrite(Thread current) {
        return writer == current || writer == null && reads == 0;
    }

    private boolean may(boolean isWrite, Thread current) {
        return isWrite ? mayWrite(current) : mayRead(current);
    }

    private void own(boolean isWrite, Thread current, int count) {
        if (isWrite) {
            writer = current;
            writes += count;
        } else {
            reads += count;
        }
    }

    synchronized void take(boolean isWrite, int count) {
        Thread current = Thread.currentThread();
        boolean wasInterrupted = false;
        while (!may(isWrite, current)) {
            try {
                wait();
            } catch (InterruptedException interrupted) {
                wasInterrupted = true;
            }
        }
        own(isWrite, current, count);
        if (wasInterrupted) {
            current.interrupt();
        }
    }

    synchronized void takeInterruptibly(boolean isWrite) throws InterruptedException {
        if (Thread.interrupted()) {
            throw new InterruptedException();
        }
        Thread current = Thread.currentThread();
        while (!may(isWrite, current)) {
            wait();
        }
        own(isWrite, current, 1);
    }

    synchronized boolean tryTake(boolean isWrite) {
        Thread current = Thread.currentThread();
        if (!may(isWrite, current)) {
            return false;
        }
        own(isWrite, current, 1);
        return true;
    }

    synchronized void giveRead() {
        if (reads == 0) {
            throw new IllegalMonitorStateException();
        }
        reads--;
        if (reads == 0) {
            notifyAll();
        }
    }

    synchronized void giveWrite(int count) {
        if (writer != Thread.currentThread()) {
            throw new IllegalMonitorStateException();
        }
        writes -= count;
        if (writes == 0) {
            writer = null;
            notifyAll();
        }
    }

    /** What readers take. */
    public static class ReadLock implements Lock, java.io.Serializable {
        private final ReentrantReadWriteLock both;

        protected ReadLock(ReentrantReadWriteLock both) {
            this.both = both;
        }

        public void lock() {
            both.take(false, 1);
        }

        public void lockInterruptibly() throws InterruptedException {
            both.takeInterruptibly(false);
        }

        public boolean tryLock() {
            return both.tryTake(false);
        }

        public void unlock() {
            both.giveRead();
        }

        public Condition newCondition() {
            throw new UnsupportedOperationException();
        }
    }

    /** What writers take. */
    public static class WriteLock implements Lock, java.io.Serializable {
        final ReentrantReadWriteLock both;

        protected WriteLock(ReentrantReadWriteLock both) {
            this.both = both;
        }

        public void lock() {
            both.take(true, 1);
        }

        public void lockInterruptibly() throws InterruptedException {
            both.takeInterruptibly(true);
        }

        public boolean tryLock() {
            return both.tryTake(true);
        }

        public void unlock() {
            both.giveWrite(1);
        }

        public Condition newCondition() {
            return new WriteCondition(both);
        }

        public boolean isHeldByCurrentThread() {
            return both.isWriteLockedByCurrentThread();
        }

        public int getHoldCount() {
            return both.getWriteHoldCount();
        }
    }
}
