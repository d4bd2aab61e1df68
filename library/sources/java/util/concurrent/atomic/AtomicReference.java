package java.util.concurrent.atomic;

/**
 * A reference that threads change without a lock of their own; `compareAndSet` compares by identity.
 *
 * What changes the value does so under the lock of this object, by one write; `get` is one read of a volatile field.
 * Left out: what takes a function.
 */
public class AtomicReference<V> implements java.io.Serializable {
    private volatile V value;

    public AtomicReference() {
    }

    public AtomicReference(V value) {
        this.value = value;
    }

    public final V get() {
        return value;
    }

    public final synchronized void set(V value) {
        this.value = value;
    }

    public final synchronized void lazySet(V value) {
        this.value = value;
    }

    public final synchronized V getAndSet(V value) {
        V old = this.value;
        this.value = value;
        return old;
    }

    public final synchronized boolean compareAndSet(V expected, V value) {
        if (this.value != expected) {
            return false;
        }
        this.value = value;
        return true;
    }

    public final boolean weakCompareAndSet(V expected, V value) {
        return compareAndSet(expected, value);
    }

    public String toString() {
        return String.valueOf(get());
    }
}
