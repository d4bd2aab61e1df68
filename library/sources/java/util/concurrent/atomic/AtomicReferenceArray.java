package java.util.concurrent.atomic;

/**
 * References that threads change without a lock of their own; `compareAndSet` compares by identity.
 *
 * Every operation is done under the lock of this object. Left out: what takes a function.
 */
public class AtomicReferenceArray<E> implements java.io.Serializable {
    private final Object[] values;

    public AtomicReferenceArray(int length) {
        values = new Object[length];
    }

    public AtomicReferenceArray(E[] array) {
        values = new Object[array.length];
        for (int at = 0; at < array.length; at++) {
            values[at] = array[at];
        }
    }

    public final int length() {
        return values.length;
    }

    @SuppressWarnings("unchecked")
    public final synchronized E get(int at) {
        return (E) values[at];
    }

    public final synchronized void set(int at, E value) {
        values[at] = value;
    }

    public final synchronized void lazySet(int at, E value) {
        values[at] = value;
    }

    @SuppressWarnings("unchecked")
    public final synchronized E getAndSet(int at, E value) {
        E old = (E) values[at];
        values[at] = value;
        return old;
    }

    public final synchronized boolean compareAndSet(int at, E expected, E value) {
        if (values[at] != expected) {
            return false;
        }
        values[at] = value;
        return true;
    }

    public final boolean weakCompareAndSet(int at, E expected, E value) {
        return compareAndSet(at, expected, value);
    }

    public String toString() {
        StringBuilder made = new StringBuilder("[");
        for (int at = 0; at < values.length; at++) {
            made.append(at == 0 ? "" : ", ").append(get(at));
        }
        return made.append(']').toString();
    }
}
