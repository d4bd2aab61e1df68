package java.util.concurrent.atomic;

/**
 * A boolean that threads change without a lock of their own.
 *
 * What changes the value does so under the lock of this object, by one write; `get` is one read of a volatile field.
 */
public class AtomicBoolean implements java.io.Serializable {
    private volatile boolean value;

    public AtomicBoolean() {
    }

    public AtomicBoolean(boolean value) {
        this.value = value;
    }

    public final boolean get() {
        return value;
    }

    public final synchronized void set(boolean value) {
        this.value = value;
    }

    public final synchronized void lazySet(boolean value) {
        this.value = value;
    }

    public final synchronized boolean getAndSet(boolean value) {
        boolean old = this.value;
        this.value = value;
        return old;
    }

    public final synchronized boolean compareAndSet(boolean expected, boolean value) {
        if (this.value != expected) {
            return false;
        }
        this.value = value;
        return true;
    }

    public boolean weakCompareAndSet(boolean expected, boolean value) {
        return compareAndSet(expected, value);
    }

    public String toString() {
        return String.valueOf(get());
    }
}
