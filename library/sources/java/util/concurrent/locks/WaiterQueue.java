package java.util.concurrent.locks;

/** Those that wait, first in, first out, of this library's own. The lock of its user guards it. */
public final class WaiterQueue {
    private Waiter first;
    private Waiter last;

    public WaiterQueue() {
    }

    public boolean isEmpty() {
        return first == null;
    }

    public Waiter first() {
        return first;
    }

    public void add(Waiter waiter) {
        if (first == null) {
            first = waiter;
        } else {
            last.next = waiter;
        }
        last = waiter;
    }

    /** Takes out the first one; null where there is none. */
    public Waiter poll() {
        Waiter waiter = first;
        if (waiter != null) {
            first = waiter.next;
        }
        return waiter;
    }

    /** Takes out one of them; false where it isn't there any more. */
    public boolean remove(Waiter waiter) {
        Waiter before = null;
        for (Waiter at = first; at != null; before = at, at = at.next) {
            if (at == waiter) {
                if (before == null) {
                    first = at.next;
                } else {
                    before.next = at.next;
                }
                if (last == at) {
                    last = before;
                }
                return true;
            }
        }
        return false;
    }

    public int size() {
        int size = 0;
        for (Waiter at = first; at != null; at = at.next) {
            size++;
        }
        return size;
    }

    public boolean contains(Thread thread) {
        for (Waiter at = first; at != null; at = at.next) {
            if (at.thread == thread) {
                return true;
            }
        }
        return false;
    }
}
