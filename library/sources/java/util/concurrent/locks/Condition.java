package java.util.concurrent.locks;

/**
 * What threads that own a lock wait for, and tell each other. Left out: `await` with a time, `awaitNanos`,
 * `awaitUntil`.
 */
public interface Condition {
    void await() throws InterruptedException;

    void awaitUninterruptibly();

    void signal();

    void signalAll();
}
