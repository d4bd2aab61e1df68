package java.util.concurrent.atomic;

/**
 * An int that threads change without a lock of their own.
 *
 * Each operation is one step for all others: what changes the value does so under the lock of this object, by one
 * write, and `get` is one read of a volatile field. Left out: what takes a function, and long, float and double.
 */
public class AtomicInteger extends Number {
    private volatile int value;

    public AtomicInteger() {
    }

    public AtomicInteger(int value) {
        this.value = value;
    }

    public final int get() {
        return value;
    }

    public int intValue() {
        return value;
    }

    public final synchronized void set(int value) {
        this.value = value;
    }

    public final synchronized void lazySet(int value) {
        this.value = value;
    }

    public final synchronized int getAndSet(int value) {
        int old = this.value;
        this.value = value;
        return old;
    }

    public final synchronized boolean compareAndSet(int expected, int value) {
        if (this.value != expected) {
            return false;
        }
        this.value = value;
        return true;
    }

    public final boolean weakCompareAndSet(int expected, int value) {
        return compareAndSet(expected, value);
    }

    public final synchronized int getAndAdd(int by) {
        int old = value;
        value = old + by;
        return old;
    }

    public final synchronized int addAndGet(int by) {
        int made = value + by;
        value = made;
        return made;
    }

    public final int getAndIncrement() {
        return getAndAdd(1);
    }

    public final int getAndDecrement() {
        return getAndAdd(-1);
    }

    public final int incrementAndGet() {
        return addAndGet(1);
    }

    public final int decrementAndGet() {
        return addAndGet(-1);
    }

    public String toString() {
        return String.valueOf(get());
    }
}
