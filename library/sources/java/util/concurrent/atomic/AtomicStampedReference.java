package java.util.concurrent.atomic;

/**
 * A reference with an int, its stamp, that change together; references are compared by identity.
 *
 * What reads or changes both does so under the lock of this object.
 */
public class AtomicStampedReference<V> {
    private volatile V reference;
    private volatile int stamp;

    public AtomicStampedReference(V reference, int stamp) {
        this.reference = reference;
        this.stamp = stamp;
    }

    public V getReference() {
        return reference;
    }

    public int getStamp() {
        return stamp;
    }

    public synchronized V get(int[] holder) {
        holder[0] = stamp;
        return reference;
    }

    public synchronized void set(V reference, int stamp) {
        this.reference = reference;
        this.stamp = stamp;
    }

    public synchronized boolean compareAndSet(V expected, V reference, int expectedStamp, int stamp) {
        if (this.reference != expected || this.stamp != expectedStamp) {
            return false;
        }
        this.reference = reference;
        this.stamp = stamp;
        return true;
    }

    public boolean weakCompareAndSet(V expected, V reference, int expectedStamp, int stamp) {
        return compareAndSet(expected, reference, expectedStamp, stamp);
    }

    public synchronized boolean attemptStamp(V expected, int stamp) {
        if (reference != expected) {
            return false;
        }
        this.stamp = stamp;
        return true;
    }
}
