package java.util.concurrent.atomic;

/**
 * Ints that threads change without a lock of their own.
 *
 * Every operation is done under the lock of this object. Left out: what takes a function.
 */
public class AtomicIntegerArray implements java.io.Serializable {
    private final int[] values;

    public AtomicIntegerArray(int length) {
        values = new int[length];
    }

    public AtomicIntegerArray(int[] array) {
        values = new int[array.length];
        for (int at = 0; at < array.length; at++) {
            values[at] = array[at];
        }
    }

    public final int length() {
        return values.length;
    }

    public final synchronized int get(int at) {
        return values[at];
    }

    public final synchronized void set(int at, int value) {
        values[at] = value;
    }

    public final synchronized void lazySet(int at, int value) {
        values[at] = value;
    }

    public final synchronized int getAndSet(int at, int value) {
        int old = values[at];
        values[at] = value;
        return old;
    }

    public final synchronized boolean compareAndSet(int at, int expected, int value) {
        if (values[at] != expected) {
            return false;
        }
        values[at] = value;
        return true;
    }

    public final boolean weakCompareAndSet(int at, int expected, int value) {
        return compareAndSet(at, expected, value);
    }

    public final synchronized int getAndAdd(int at, int by) {
        int old = values[at];
        values[at] = old + by;
        return old;
    }

    public int addAndGet(int at, int by) {
        return getAndAdd(at, by) + by;
    }

    public final int getAndIncrement(int at) {
        return getAndAdd(at, 1);
    }

    public final int getAndDecrement(int at) {
        return getAndAdd(at, -1);
    }

    public final int incrementAndGet(int at) {
        return getAndAdd(at, 1) + 1;
    }

    public final int decrementAndGet(int at) {
        return getAndAdd(at, -1) - 1;
    }

    public String toString() {
        StringBuilder made = new StringBuilder("[");
        for (int at = 0; at < values.length; at++) {
            made.append(at == 0 ? "" : ", ").append(get(at));
        }
        return made.append(']').toString();
    }
}
