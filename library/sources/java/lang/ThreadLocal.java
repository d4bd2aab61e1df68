package java.lang;

/**
 * A value for each thread.
 *
 * Values stand in a chain, an entry for each thread that has asked. A thread reads the chain without a lock, and
 * puts its entry in front under the lock of this object; what an entry holds is read and written by its thread
 * alone. Left out: `withInitial`.
 */
public class ThreadLocal<T> {
    static final class Entry {
        final Thread thread;
        final Entry next;
        Object value;
        boolean isSet;

        Entry(Thread thread, Entry next) {
            this.thread = thread;
            this.next = next;
        }
    }

    private volatile Entry first;

    public ThreadLocal() {
    }

    protected T initialValue() {
        return null;
    }

    @SuppressWarnings("unchecked")
    public T get() {
        Entry entry = entry();
        if (!entry.isSet) {
            entry.value = initialValue();
            entry.isSet = true;
        }
        return (T) entry.value;
    }

    public void set(T value) {
        Entry entry = entry();
        entry.value = value;
        entry.isSet = true;
    }

    public void remove() {
        Entry entry = entry();
        entry.value = null;
        entry.isSet = false;
    }

    private Entry entry() {
        Thread current = Thread.currentThread();
        for (Entry entry = first; entry != null; entry = entry.next) {
            if (entry.thread == current) {
                return entry;
            }
        }
        synchronized (this) {
            Entry made = new Entry(current, first);
            first = made;
            return made;
        }
    }
}
