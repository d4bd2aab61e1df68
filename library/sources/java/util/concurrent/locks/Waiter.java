package java.util.concurrent.locks;

/**
 * A thread that waits for its turn in a queue, of this library's own (the JDK has no such class).
 *
 * The thread waits on the monitor of this object, so that whoever hands it its turn wakes it alone. A turn that
 * was handed out before the thread waits isn't lost.
 */
public class Waiter {
    public final Thread thread;
    /** The one behind it in its queue, guarded by the lock of the queue. */
    public Waiter next;
    private boolean hasTurn;

    public Waiter(Thread thread) {
        this.thread = thread;
    }

    /** Waits for the turn; an interrupt ends that only before the turn is handed out. */
    public final synchronized void await() throws InterruptedException {
        while (!hasTurn) {
            wait();
        }
    }

    /** Waits for the turn; one that is interrupted has its interrupt status set behind it. */
    public final synchronized void awaitUninterruptibly() {
        boolean wasInterrupted = false;
        while (!hasTurn) {
            try {
                wait();
            } catch (InterruptedException interrupted) {
                wasInterrupted = true;
            }
        }
        if (wasInterrupted) {
            Thread.currentThread().interrupt();
        }
    }

    /** Hands out the turn. */
    public final synchronized void wake() {
        hasTurn = true;
        notify();
    }
}
