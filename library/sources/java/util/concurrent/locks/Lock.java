package java.util.concurrent.locks;

/** A lock that is taken and given back by calls. Left out: `tryLock` with a time. */
public interface Lock {
    void lock();

    void lockInterruptibly() throws InterruptedException;

    boolean tryLock();

    void unlock();

    Condition newCondition();
}
