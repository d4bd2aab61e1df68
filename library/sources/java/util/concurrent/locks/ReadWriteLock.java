package java.util.concurrent.locks;

/** Two locks: one that many threads own at once, and one that a thread owns alone. */
public interface ReadWriteLock {
    Lock readLock();

    Lock writeLock();
}
