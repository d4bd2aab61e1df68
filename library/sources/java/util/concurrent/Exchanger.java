package java.util.concurrent;

/**
 * Two threads meet here, and each gets what the other one has brought.
 *
 * One that comes alone waits; the next one that comes meets it. Left out: times.
 */
public class Exchanger<V> {
    static final class Offer {
        final Object brought;
        Object answer;
        boolean isMet;

        Offer(Object brought) {
            this.brought = brought;
        }
    }

    private Offer waiting;

    public Exchanger() {
    }

    @SuppressWarnings("unchecked")
    public synchronized V exchange(V value) throws InterruptedException {
        if (Thread.interrupted()) {
            throw new InterruptedException();
        }
        Offer other = waiting;
        if (other != null) {
            waiting = null;
            other.answer = value;
            other.isMet = true;
            notify();
            return (V) other.brought;
        }
        Offer mine = new Offer(value);
        waiting = mine;
        while (!mine.isMet) {
            try {
                wait();
            } catch (InterruptedException interrupted) {
                if (!mine.isMet) {
                    waiting = null;
                    throw interrupted;
                }
                Thread.currentThread().interrupt();
            }
        }
        return (V) mine.answer;
    }
}
