package java.util.concurrent.atomic;

/**
 * A reference with a boolean, its mark, that change together; references are compared by identity.
 *
 * What reads or changes both does so under the lock of this object.
 */
public class AtomicMarkableReference<V> {
    private volatile V reference;
    private volatile boolean mark;

    public AtomicMarkableReference(V reference, boolean mark) {
        this.reference = reference;
        this.mark = mark;
    }

    public V getReference() {
        return reference;
    }

    public boolean isMarked() {
        return mark;
    }

    public synchronized V get(boolean[] holder) {
        holder[0] = mark;
        return reference;
    }

    public synchronized void set(V reference, boolean mark) {
        this.reference = reference;
        this.mark = mark;
    }

    public synchronized boolean compareAndSet(V expected, V reference, boolean expectedMark, boolean mark) {
        if (this.reference != expected || this.mark != expectedMark) {
            return false;
        }
        this.reference = reference;
        this.mark = mark;
        return true;
    }

    public boolean weakCompareAndSet(V expected, V reference, boolean expectedMark, boolean mark) {
        return compareAndSet(expected, reference, expectedMark, mark);
    }

    public synchronized boolean attemptMark(V expected, boolean mark) {
        if (reference != expected) {
            return false;
        }
        this.mark = mark;
        return true;
    }
}
